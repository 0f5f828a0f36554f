"""JPEG files of many kinds, made by cjpeg, jpegtran and ImageMagick's convert, and by cutting what
they make.

`groups` gives for each kind its name and its files, each a name and its bytes.
"""

import subprocess
import tempfile

from pictures import PICTURES, ppm
from segments import mjpeg_frame, prefixes, with_adobe, without_component

SIZES = [(1, 1), (2, 3), (7, 5), (8, 8), (17, 9), (33, 40), (64, 48), (100, 75), (203, 151)]
FEW_SIZES = [(1, 1), (9, 7), (17, 33), (50, 41), (97, 64)]
# The sampling factors of the components, as `cjpeg -sample` takes them; it repeats the last for
# those that are not named.
SAMPLINGS = [
    "1x1",
    "2x1",
    "1x2",
    "2x2",
    "4x1",
    "1x4",
    "1x1,2x1",
    "1x1,1x2",
    "2x2,1x1,1x2",
    "2x2,2x1,1x1",
    "1x1,1x1,2x2",
]
# In these a component has half of the greatest factor of 4. Where it stands alone in a scan the
# original crate reads too many blocks.
HALVES_OF_FOUR = ["4x1,2x1,1x1", "1x4,1x2,1x1"]
FEW_SAMPLINGS = ["1x1", "2x1", "1x2", "2x2"]
CODINGS = {
    "plain": [],
    "restart after each row of MCUs": ["-restart", "1"],
    "restart after each MCU": ["-restart", "1B"],
    "restart after each two MCUs": ["-restart", "2B"],
    "optimised tables, quality 30": ["-optimize", "-quality", "30"],
    "wide quantization tables": ["-quality", "2"],
    "quality 100": ["-quality", "100"],
    "progressive": ["-progressive"],
    "progressive, restart after each row of MCUs": ["-progressive", "-restart", "1"],
    "progressive, restart after each MCU": ["-progressive", "-restart", "1B"],
}
COLOURS = {"grey": ["-grayscale"], "red, green and blue": ["-rgb"]}
SEQUENTIAL_SCRIPTS = {
    "a scan for each component": "0;\n1;\n2;\n",
    "a scan for the first component and one for the others": "0;\n1 2;\n",
    "the last component first": "2;\n0 1;\n",
}
PROGRESSIVE_SCRIPTS = {
    "spectral selection alone": "0 1 2: 0-0, 0, 0;\n0: 1-5, 0, 0;\n"
    "2: 1-63, 0, 0;\n1: 1-63, 0, 0;\n0: 6-63, 0, 0;\n",
    "three steps of approximation": "".join(
        f"0 1 2: 0-0, {high}, {low};\n"
        + "".join(f"{component}: 1-63, {high}, {low};\n" for component in range(3))
        for high, low in [(0, 2), (2, 1), (1, 0)]
    ),
    "each component alone": "".join(
        f"{component}: 0-0, 0, 1;\n{component}: 1-8, 0, 2;\n"
        f"{component}: 9-63, 0, 2;\n{component}: 1-63, 2, 1;\n"
        f"{component}: 0-0, 1, 0;\n{component}: 1-63, 1, 0;\n"
        for component in range(3)
    ),
}
TRANSCODINGS = {
    "sequential": [],
    "optimised": ["-optimize"],
    "progressive": ["-progressive"],
    "restarts": ["-restart", "1B"],
    "progressive with restarts": ["-progressive", "-restart", "1"],
}


def output_of(words, stdin):
    """What a program writes for some input."""
    return subprocess.run(words, input=stdin, capture_output=True, check=True).stdout


def with_script(words, script, stdin):
    """What cjpeg or jpegtran writes with a script of scans."""
    with tempfile.NamedTemporaryFile("w", suffix=".scans") as file:
        file.write(script)
        file.flush()
        return output_of([*words, "-scans", file.name], stdin)


def drawn(sizes):
    """Each picture at each of the sizes: its name and its PPM file."""
    for width, height in sizes:
        for kind in PICTURES:
            yield f"{kind} {width}x{height}", ppm(kind, width, height)


def sampled():
    """Every coding in every sampling."""
    for name, picture in drawn(SIZES):
        for sampling in SAMPLINGS:
            for coding, words in CODINGS.items():
                yield f"{name}; {sampling}; {coding}", output_of(
                    ["cjpeg", "-quality", "80", "-sample", sampling, *words], picture
                )


def one_sample_a_component():
    """Grey pictures, and red, green and blue without conversion."""
    for name, picture in drawn(SIZES):
        for colours, colour_words in COLOURS.items():
            for coding, words in CODINGS.items():
                yield f"{name}; {colours}; {coding}", output_of(
                    ["cjpeg", "-quality", "80", *colour_words, *words], picture
                )


def scripted(scripts, restarts):
    """Every script of scans in the usual samplings."""
    for name, picture in drawn(FEW_SIZES):
        for sampling in FEW_SAMPLINGS:
            for title, script in scripts.items():
                words = ["cjpeg", "-quality", "85", "-sample", sampling, *restarts]
                yield f"{name}; {sampling}; {title}", with_script(words, script, picture)


def closed_early():
    """Progressive files, closed after each of their scans."""
    for name, stream in scripted(PROGRESSIVE_SCRIPTS, []):
        for count, prefix in enumerate(prefixes(stream), 1):
            yield f"{name}; {count} scans of it", prefix


def never_sent():
    """Progressive files in which one component is never sent."""
    script = {"each component alone": PROGRESSIVE_SCRIPTS["each component alone"]}
    for name, stream in scripted(script, []):
        for component in (1, 2, 3):
            yield f"{name}; component {component} never sent", without_component(stream, component)


def mjpeg_frames():
    """Frames without Huffman tables."""
    for name, picture in drawn(SIZES):
        for sampling in FEW_SAMPLINGS:
            yield f"{name}; {sampling}", mjpeg_frame(
                output_of(["cjpeg", "-sample", sampling], picture)
            )
        yield f"{name}; grey", mjpeg_frame(output_of(["cjpeg", "-grayscale"], picture))


def other_colours():
    """Files of three components whose colours Adobe's segment names, or nothing."""
    for name, picture in drawn(FEW_SIZES):
        for sampling in FEW_SAMPLINGS:
            stream = output_of(["cjpeg", "-sample", sampling], picture)
            for transform in (None, 0, 1, 2):
                yield f"{name}; {sampling}; Adobe's colours {transform}", with_adobe(
                    stream, transform
                )


def four_components():
    """Cyan, magenta, yellow and black by ImageMagick, and the same coefficients read as YCCK and
    with no word on colours."""
    for name, picture in drawn(FEW_SIZES):
        for sampling in FEW_SAMPLINGS:
            for interlace in ("none", "JPEG"):
                words = [
                    "convert",
                    "ppm:-",
                    "-colorspace",
                    "CMYK",
                    "-quality",
                    "85",
                    "-sampling-factor",
                    sampling,
                ]
                stream = output_of([*words, "-interlace", interlace, "jpg:-"], picture)
                coding = f"{name}; {sampling}; interlace {interlace}"
                for transform in (None, 0, 2):
                    adobe = f"Adobe's colours {transform}"
                    yield f"{coding}; {adobe}", with_adobe(stream, transform)


def groups():
    """The kinds of files, each with its name."""
    yield "samplings and codings", sampled()
    yield "grey, and red, green and blue", one_sample_a_component()
    yield "several sequential scans", scripted(SEQUENTIAL_SCRIPTS, [])
    yield "several sequential scans with restarts", scripted(SEQUENTIAL_SCRIPTS, ["-restart", "2B"])
    yield "progressive scripts", scripted(PROGRESSIVE_SCRIPTS, [])
    yield "progressive scripts with restarts", scripted(PROGRESSIVE_SCRIPTS, ["-restart", "1B"])
    yield "progressive files closed early", closed_early()
    yield "a component never sent", never_sent()
    yield "MJPEG frames without tables", mjpeg_frames()
    yield "colours by Adobe's segment", other_colours()
    yield "four components", four_components()


def same_coefficients():
    """Files of the same coefficients: for each picture a name and its codings, each a name and its
    bytes."""
    for name, picture in drawn(FEW_SIZES):
        for sampling in SAMPLINGS + HALVES_OF_FOUR:
            stream = output_of(["cjpeg", "-quality", "85", "-sample", sampling], picture)
            codings = {"cjpeg": stream}
            for coding, words in TRANSCODINGS.items():
                codings[coding] = output_of(["jpegtran", *words], stream)
            for title, script in (SEQUENTIAL_SCRIPTS | PROGRESSIVE_SCRIPTS).items():
                codings[title] = with_script(["jpegtran"], script, stream)
            yield f"{name}; {sampling}", codings
