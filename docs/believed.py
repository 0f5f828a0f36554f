#!/usr/bin/env python3
"""Lists the definitions in crates/*/specs that the public clauses rest on: what has to be believed.

    docs/believed.py            counts and names by file
    docs/believed.py --table    what each file says, and the laws that compute it
    docs/believed.py --shared   what writer, reader and picture share
    docs/believed.py --check    fails with a diff if docs/REVIEW.md differs from what this computes,
                                or if what is written rests on what a reader answers
    docs/believed.py --write    writes the lists of docs/REVIEW.md, and both tables into
                                out/believed.md

It follows names: a definition reaches each name in its text that its file defines or imports, a
constructor its type, and `do` the `>>=` of its file. A variable spelled like a definition in scope
counts as that definition. Comments, imports and blank lines are not counted.
"""
import difflib
import re
import sys
import textwrap
from pathlib import Path

ROOT = Path(__file__).resolve().parent.parent
CRATES = """jpeg_bits jpeg_segments jpeg_pixels jpeg_lossless jpeg_meaning jpeg_decoder
    jpeg_orientation zaxbriar_metadata zaxbriar_samples zaxbriar_calls""".split()

# Where laws on streams and numbers that were worked by hand stand (`known_..` and `worked_..`), and
# what those that read or write a whole stream compute beside the definitions that they name.
LAWS = {
    "jpeg_pixels/src/laws": "laws::",
    "jpeg_lossless/src/laws": "laws::",
    "jpeg_evidence/src/worked": "",
    "jpeg_evidence/src/limits": "",
    "jpeg_decoder/src/laws/headline": "laws::headline::",
    "jpeg_decoder/src/laws/lossless": "laws::lossless::",
    "jpeg_orientation/src/laws": "laws::",
    "zaxbriar_metadata/src/laws": "laws::",
    "zaxbriar_calls/src/laws": "laws::",
}
STREAMS = {
    "known_streams": """jpeg_bits Reading Marker Entropy Readers Codes Bands Passes Intervals,
        jpeg_segments Checks Quantization HuffmanTables Frame ScanHeader,
        jpeg_pixels Samples Planes, jpeg_meaning Order Scans Rasters Found Segments ScanSegments
        FoundPictures Stream""",
    "known_scans": """jpeg_bits Refinement, jpeg_segments Scales, jpeg_pixels Scaled Upsampling
        Pictures, jpeg_meaning Order Scans ColourChoice""",
    "known_scaled_pixels": "jpeg_segments Scales, jpeg_pixels Scaled",
    "known_images": "jpeg_bits Refinement, jpeg_pixels Upsampling Pictures",
    "known_orders": "jpeg_meaning Order Scans",
    "known_crops": "jpeg_pixels Planes",
    "known_planes": "jpeg_meaning FoundPlanes",
    "known_written_planes": "jpeg_meaning FoundPlanes WrittenPlanes",
    "known_applications": "jpeg_bits DefaultTables, jpeg_segments Application",
    "laws::known_thumbnails": "jpeg_orientation Tiff",
    "laws::known_joined_metadata": "zaxbriar_calls StreamSegments Places",
    "laws::known_interleaved_scans": "jpeg_lossless Prediction Differences Scans",
    "laws::headline::worked_images_are_written": """jpeg_bits Written, jpeg_segments WrittenSegments
        ScanHeaders, jpeg_meaning Levels WrittenData WrittenScans SaidSegments WrittenStreams
        WrittenImages""",
    "laws::lossless::worked_samples_are_written": """jpeg_lossless Written, jpeg_meaning
        LosslessScans WrittenLossless""",
}
# The modules of jpeg_decoder that state the theorems.
THEOREMS = ["laws/headline", "laws/lossless"]
# What the parts that write, read and picture begin with.
WRITER = ["jpeg_meaning.WrittenImages.WritesImage", "jpeg_meaning.WrittenLossless.WritesSamples"]
READER = [
    "jpeg_meaning.Stream.meaning",
    "jpeg_meaning.Stream.sized_meaning",
    "jpeg_meaning.Stream.scaled_meaning",
]
PICTURE = [
    "jpeg_meaning.ArrayPictures.picture_of_array",
    "jpeg_meaning.WrittenLossless.picture_of_samples",
]
# Where the structs stand whose values the view of a `Decoder` shows: their views count with it.
HELD = "stream/state"
# What is answered by a definition that reads bytes, or that refuses what it reads. What is written
# rests on none: else a reader that refused more would make streams fewer.
ANSWERS = {"Outcome", "Reads", "Result", "Fault"}
APART = [
    "Nothing that is written rests on a definition that reads bytes or refuses something (none",
    "names " + ", ".join(f"`{word}`" for word in sorted(ANSWERS)) + "). The one look-up that both",
    "share is `index_of`, which finds a component by its identifier; `header_rules` says which",
    "choices it allows.",
]
BEGIN, END = "<!-- docs/believed.py: begin -->", "<!-- docs/believed.py: end -->"


def without_comments(text):
    return re.sub(r'"[^"\n]*"', '""', re.sub(r"(--|//).*", "", text))


def imports(text, keyword):
    """For each name that a file imports of specs/, the file it is of and its name there."""
    scope = {}
    path = r" Rattle\.(\w+)\.specs\.(\w+|declared(?:\.[a-z]\w*)+\.[A-Z]\w*)"
    path += r"(?:\.The(?:Variants|Inside))?"
    form = r"(?m)^\s*" + keyword + path + r"(?:\.\{([^}]*)\}| as (\w+))"
    for crate, module, names, alias in re.findall(form, without_comments(text)):
        for entry in filter(None, map(str.strip, names.split(","))):
            name, _, other = entry.partition(" as ")
            scope[other or name] = ((crate, module), name)
        scope.update({alias: ((crate, module), "")} if alias else {})
    return scope


class Specs:
    """The definitions, by file and name, in reading order: that of the crates and of Lib.antt."""

    def __init__(self):
        self.text, self.lines, self.type_of, self.scope, self.says = {}, {}, {}, {}, {}
        for crate in CRATES:
            folder = ROOT / "crates" / crate / "specs"
            for module in re.findall(r"pub mod (\w+)", (folder / "Lib.antt").read_text("utf8")):
                self.add((crate, module), (folder / (module + ".antt")).read_text("utf8"))
        for scope in self.scope.values():
            for file, name in scope.values():
                known = (file, name) in self.text or (file, name) in self.type_of
                assert known or not name or file not in self.says, (file, name)

    def add(self, file, text):
        comment = " ".join(re.findall(r"^-- (.*)", text.split("\nuse ")[0], re.M))
        self.says[file] = re.split(r"\.(?: |$)", comment)[0]
        self.scope[file] = imports(text, "use")
        items = list(
            re.finditer(r"(?m)^(?:abbrev |unfoldable )?pub (?:record |(data) )?(\S+)", text)
        )
        for item, end in zip(items, [i.start() for i in items[1:]] + [len(text)]):
            body = re.split(r"(?m)^(?:use|infixl) ", without_comments(text[item.start() : end]))[0]
            key = (file, item.group(2))
            self.text[key] = body
            self.lines[key] = sum(1 for line in body.splitlines() if line.strip())
            for constructor in re.findall(r"(?m)^  (\w+) :", body) if item.group(1) else []:
                self.type_of[file, constructor] = key

    def words(self, text, scope, file=None):
        """What the words of a text may stand for, by the imports and the definitions of its
        file."""
        words = set(re.findall(r"(?<![\w.])[A-Za-z_]\w*(?:\.[\w◌>=]+)*", text))
        words |= {"◌>>=◌"} if "do" in words or ">>=" in text else set()
        for first, _, rest in (word.partition(".") for word in words):
            other, name = scope.get(first, (None, ""))
            yield from [(file, first), (other, name or rest)]

    def named(self, text, scope, file=None):
        keys = {self.type_of.get(key, key) for key in self.words(text, scope, file)}
        return keys & self.text.keys()

    def types(self, keys):
        """The types of the code that definitions name, by crate."""
        words = {word for key in keys for word in self.words(self.text[key], self.scope[key[0]])}
        modules = {file for file, _ in words if file and file[0] in CRATES and "." in file[1]}
        return [
            name.split(".")[-1] for crate in CRATES for of, name in sorted(modules) if of == crate
        ]

    def reached(self, seeds):
        seen, left = set(), list(seeds)
        while left:
            key = left.pop()
            if key not in seen:
                seen.add(key)
                left += self.named(self.text[key], self.scope[key[0]], key[0])
        return seen

    def seeds(self, path, functions):
        """What the contracts of the public functions of a Rust file, and the views of its types,
        name.

        The invariant of a model isn't counted: that it holds of each value is proved, and no clause
        says it.
        """
        text = (ROOT / "crates" / (path + ".rt")).read_text("utf8")
        parts = re.findall(r"(?m)^ *pub fn (?:" + functions + r")\b[\s\S]*?\n *\{", text)
        models = "\n".join(re.findall(r"(?m)^impl[^\n]* Model for [\s\S]*?^\}", text))
        parts.append(re.sub(r"ghost invariant = \{[\s\S]*?\};", "", models))
        clauses = re.sub(r"(?m)//.*|^ *ghost use .*", "", "\n".join(parts))
        return self.named(clauses, imports(text, "ghost use"))

    def under(self, names):
        parts = [name.split(".") for name in names]
        return self.reached({((crate, module), name) for crate, module, name in parts})

    def by_file(self, keys):
        """Of each file with some of them its names and the number of their lines."""
        files = {}
        for key in self.text:
            if key in keys:
                names, lines = files.get(key[0], ([], 0))
                files[key[0]] = (names + [key[1]], lines + self.lines[key])
        return files

    def total(self, keys):
        lines = sum(self.lines[key] for key in keys)
        return f"{len(keys)} definitions of {lines:,} lines in {len(self.by_file(keys))} files"


def believed(specs):
    """What the clauses of `Decoder`, `run` and `report` reach, and what those of the laws and those
    of the C library's calls add."""
    of = {
        name: specs.seeds("jpeg_decoder/src/" + name, r"\w+")
        for name in ["decoder", "run", *THEOREMS]
    }
    held = specs.seeds("jpeg_decoder/src/" + HELD, "(?!)")
    calls = specs.reached(of["decoder"] | of["run"] | held)
    laws = specs.reached(set().union(*(of[name] for name in THEOREMS))) - calls
    library = specs.reached(specs.seeds("zaxbriar_calls/src/calls", r"\w+"))
    return calls, laws, library - calls - laws


def computed_on(specs):
    """By file the laws that compute it: they name a function of it, or go through it."""
    laws = {}
    for path, module in LAWS.items():
        text = (ROOT / "crates" / (path + ".rt")).read_text("utf8")
        for law in re.findall(r"pub fn ((?:known|worked)_\w+)", text):
            for key in specs.seeds(path, law):
                if not specs.text[key].startswith("pub") and "Worked" not in key[0][1]:
                    laws.setdefault(key[0], set()).add(module + law)
    for law, files in STREAMS.items():
        for crate, *modules in (part.split() for part in files.split(",")):
            for module in modules:
                assert (crate, module) in specs.says, module
                laws.setdefault((crate, module), set()).add(law)
    return laws


def rows(specs, keys, on):
    """A table of some definitions by file, and of the laws that compute them."""
    yield "| File of `specs/` | What it says | Definitions | Lines | Computed by |"
    yield "|---|---|---|---|---|"
    for file, (names, lines) in specs.by_file(keys).items():
        count = f"{len(names)} of {sum(of == file for of, _ in specs.text)}"
        laws = ", ".join(f"`{law}`" for law in sorted(on.get(file, [])))
        yield f"| {file[0]} `{file[1]}` | {specs.says[file]} | {count} | {lines} | {laws} |"


def table(specs):
    """What each file says, how many of its definitions are reached, and by which laws computed."""
    calls, laws, library = believed(specs)
    on = computed_on(specs)
    yield f"The clauses of `Decoder`, `run` and `report` reach {specs.total(calls)}:"
    yield from ["", *rows(specs, calls, on), ""]
    types = ", ".join(f"`{name}`" for name in specs.types(calls))
    yield from [*textwrap.wrap(f"They name these types of the code: {types}.", 100), ""]
    yield f"`laws::headline` and `laws::lossless` reach {specs.total(laws)} more:"
    yield from ["", *rows(specs, laws, {}), ""]
    yield f"The calls of the C library reach {specs.total(library)} more:"
    yield from ["", *rows(specs, library, on), "", "None reaches the other files:", ""]
    files = {file for file, _ in calls | laws | library}
    for crate in CRATES:
        others = [f"`{file[1]}`" for file in specs.says if file[0] == crate and file not in files]
        item = f"- {crate}: " + ", ".join(others)
        yield from textwrap.wrap(item, 100, subsequent_indent="  ") if others else []


def answering(specs):
    """The definitions under what is written that answer as a reader does."""
    words = {key: set(re.findall(r"\w+", specs.text[key])) for key in specs.under(WRITER)}
    return [".".join((*file, name)) for (file, name), named in words.items() if ANSWERS & named]


def shared(specs):
    """What is written and the picture share with the reader, by file."""
    reader = specs.under(READER)
    for what, names in [("What is written", WRITER), ("The picture", PICTURE)]:
        under = specs.under(names)
        both = under & reader
        yield f"{what} (" + ", ".join(f"`{name.split('.')[2]}`" for name in names) + ") rests on"
        yield f"{specs.total(under)}."
        yield from [f"Of these {specs.total(both)} are under `meaning` too:", ""]
        yield from ["| File of `specs/` | What it says | Shared | Lines |", "|---|---|---|---|"]
        for file, (names, lines) in specs.by_file(both).items():
            listed = ", ".join(f"`{name}`" for name in names)
            yield f"| {file[0]} `{file[1]}` | {specs.says[file]} | {listed} | {lines} |"
        yield from ["", *APART, ""] if what != "The picture" else []


def by_crate(specs, keys, on):
    """A list of the files of some definitions by crate, in bold those that no law of a table of
    laws computes, if there is one."""
    files = specs.by_file(keys)
    bold = lambda file: "" if on is None or file in on else "**"
    for crate in CRATES:
        named = [f"{bold(file)}`{file[1]}`{bold(file)}" for file in files if file[0] == crate]
        if named:
            item = f"- {crate}: " + ", ".join(named)
            yield from textwrap.wrap(item, 100, subsequent_indent="  ")


def lists(specs):
    """The generated part of docs/REVIEW.md."""
    calls, laws, library = believed(specs)
    on = computed_on(specs)
    reader = specs.under(READER)
    for text, keys, table in [
        (f"The clauses of `Decoder`, `run` and `report` reach {specs.total(calls)}:", calls, on),
        (f"`laws::headline` and `laws::lossless` reach {specs.total(laws)} more:", laws, None),
        (f"The calls of the C library reach {specs.total(library)} more:", library, on),
    ]:
        yield from [text, "", *by_crate(specs, keys, table), ""]
    for what, names in [("What is written", WRITER), ("The picture", PICTURE)]:
        under = specs.under(names)
        roots = ", ".join(f"`{name.split('.')[2]}`" for name in names)
        text = f"{what} ({roots}) rests on {specs.total(under)}. "
        text += f"Of these {specs.total(under & reader)} are under `meaning` too:"
        yield from [*textwrap.wrap(text, 100), "", *by_crate(specs, under & reader, None), ""]
    yield from textwrap.wrap(" ".join(APART), 100)


def listing(specs):
    parts = ["Decoder, run, report", "laws::headline, laws::lossless", "zaxbriar_calls"]
    for what, keys in zip(parts, believed(specs)):
        yield f"{what}: {specs.total(keys)}"
        for (crate, module), (names, lines) in specs.by_file(keys).items():
            yield f"  {crate} {module} {lines}: {' '.join(names)}"


def main(choice):
    specs = Specs()
    parts = {"--table": table, "--shared": shared, "": listing}
    if choice in parts:
        print("\n".join(parts[choice](specs)))
        return
    if choice not in ("--check", "--write"):
        sys.exit(__doc__)
    if answering(specs):
        sys.exit("what is written rests on what a reader answers: " + ", ".join(answering(specs)))
    page = ROOT / "docs/REVIEW.md"
    old = page.read_text("utf8")
    new = "\n".join([old.split(BEGIN)[0] + BEGIN, *lists(specs), "", END + old.split(END)[1]])
    if choice == "--write":
        page.write_text(new, "utf8")
        (ROOT / "out").mkdir(exist_ok=True)
        both = "\n".join([*table(specs), "", *shared(specs)])
        (ROOT / "out/believed.md").write_text(both, "utf8")
    elif old != new:
        both = old.splitlines(), new.splitlines()
        found = difflib.unified_diff(*both, "docs/REVIEW.md", "computed", lineterm="", n=0)
        print("\n".join(found))
        sys.exit("docs/REVIEW.md is not what docs/believed.py --write makes of it")


if __name__ == "__main__":
    main("".join(sys.argv[1:]))
