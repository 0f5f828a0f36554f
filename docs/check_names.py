#!/usr/bin/env python3
"""Checks that everything the pages name in backticks exists: fails for a word that no source has.

Sources are the words of all code, without comments and string literals, and the paths of all files.
Code blocks in a page and bytes in hex are skipped; OTHERS lists what isn't a name of this
repository.
"""
import re
import subprocess
import sys
from pathlib import Path

ROOT = Path(__file__).resolve().parent.parent
# Names of other programs, of T.81 and of Rust, and words that a page explains itself.
OTHERS = """
    __xpg_strerror_r Al assets axioms Box ceil clone coef_bits compute_image_parallel
    cur_comp_info DCT_scaled_size doc dyn EOBRUN ERREXIT HEX Hmax JBLOCK jpeg_decompress_struct
    last_dc_val ljpeg LOSSLESS lseek malloc MCU_membership non_exhaustive optimizeDeps perf
    PILLOW_ALIGNMENT plant Pt rattle_alloc rattle_dealloc rattle_errno rattle_realloc
    read_markers realloc ROW Se Ss SUITE_AT SUITE_CMYK_AS_RGB tbl_no test_DCT_scaling_edges
    test_get_child_images test_load_blp1 test_strip_ycbcr_jpeg_1x1_sampling
    test_tiled_ycbcr_jpeg_1x1_sampling tj3 TJFLAG_LIMITSCANS tmp try type9_rotation_exif_tag
    ulimit unread_marker Upsample Vmax WORD WRONG
""".split()
C_COMMENTS = r'/\*[\s\S]*?\*/|"(?:\\.|[^"\\\n])*"'
COMMENTS = {
    ".rt": r'//.*|"(?:\\.|[^"\\\n])*"',
    ".rattle": r'//.*|"(?:\\.|[^"\\\n])*"',
    ".antt": r"--.*",
    ".py": r"(?m)^\s*#.*",
    ".edit": "(?!)",
    ".c": C_COMMENTS,
    ".h": C_COMMENTS,
    ".rs": r'//.*|"(?:\\.|[^"\\\n])*"',
    ".toml": r"(?m)^\s*#.*",
    ".go": r'//.*|"(?:\\.|[^"\\\n])*"',
    ".mjs": C_COMMENTS,
    ".ts": C_COMMENTS,
}


def words_of_sources(files):
    words = set(OTHERS)
    for file in files:
        words |= set(re.findall(r"\w+", str(file)))
        if file.suffix in COMMENTS or file.suffix == "":
            text = (ROOT / file).read_text("utf8", "ignore")
            words |= set(
                re.findall(r"\w+", re.sub(COMMENTS.get(file.suffix, r"(?m)^\s*#.*"), "", text))
            )
    return words


def named(page):
    """Each word of letters that a page has in backticks, with its line; `Name*` begins a name."""
    text = re.sub(r"(?m)^    .*|^```[\s\S]*?^```", lambda m: "\n" * m.group().count("\n"), page)
    for span in re.finditer(r"`([^`]+)`", text):
        line = text.count("\n", 0, span.start()) + 1
        for word in re.findall(r"[A-Za-z_]\w*\*?", span.group(1)):
            if not re.fullmatch(r"[0-9A-Fx]+\d*", word):
                yield line, word


def main():
    listed = subprocess.run(
        ["git", "ls-files"], cwd=ROOT, check=True, capture_output=True, text=True
    )
    files = [Path(line) for line in listed.stdout.splitlines() if (ROOT / line).is_file()]
    words = words_of_sources(files)
    missing = []
    for page in (file for file in files if file.suffix == ".md"):
        for line, word in named((ROOT / page).read_text("utf8")):
            begun = word.endswith("*") and any(other.startswith(word[:-1]) for other in words)
            if word not in words and not begun:
                missing.append(f"{page}:{line}: no source has `{word}`")
    if missing:
        sys.exit("\n".join(missing))


main()
