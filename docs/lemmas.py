#!/usr/bin/env python3
"""Lists the lemma files of each crate, what each is about, and what others import from it.

    docs/lemmas.py            prints the list
    docs/lemmas.py --write    writes it into out/lemmas.md
    docs/lemmas.py --check    fails if a lemma file doesn't begin with a sentence that says what it
                              is about, or if docs/LEMMAS.md names a file that no crate has

A lemma file is any in crates/*/proofs except those that answer the goals of one function, which are
in a folder with the function's name; large crates have them in folders by subject, whose names begin
with a capital. Its first comment says what it is about. A name is listed if
another file imports it from there, or if a function's tactic names it.
"""
import fnmatch
import re
import sys
import textwrap
from pathlib import Path

ROOT = Path(__file__).resolve().parent.parent
LIST = ROOT / "out/lemmas.md"
PAGE = ROOT / "docs/LEMMAS.md"
INTRODUCTION = """\
# Lemma files

What each is about, and the names that other files import from it. A file that is listed without
names is used as a whole by functions' answers, or only by its own crate's rule sets.
"""
# What the prover makes or asks for in the folder of a function.
ANSWERS = {"Answers.antt", "Goals.antt", "Given.antt", "Invariants.antt"}
IMPORT = re.compile(r"(?m)^(?:pub )?use Rattle\.(\w+)\.proofs\.([\w.]+)\.\{([^}]*)\}")
PATH = re.compile(r"(\w+)::proofs::([\w:]+)::([^\s,():]+)")


def lemma_files():
    """Gives crate, name and path of each file of lemmas, in order."""
    for path in sorted(ROOT.glob("crates/*/proofs/**/*.antt")):
        inside = path.relative_to(ROOT / "crates").parts
        if path.name not in ANSWERS and path.stem != "Lib":
            yield inside[0], ".".join([*inside[2:-1], path.stem]), path


def taken_names():
    """Gives the names that are taken from each file, by crate and file."""
    taken = {}
    for path in ROOT.glob("crates/*/proofs/**/*.antt"):
        for crate, file, names in IMPORT.findall(path.read_text("utf8")):
            found = taken.setdefault((crate, file), set())
            found.update(name.split(" as ")[0].strip() for name in names.split(",") if name.strip())
    for path in ROOT.glob("crates/*/src/**/*.rt"):
        own = path.relative_to(ROOT).parts[1]
        for crate, file, name in PATH.findall(path.read_text("utf8")):
            crate = own if crate == "crate" else crate
            taken.setdefault((crate, file.replace("::", ".")), set()).add(name)
    return taken


def first_comment(path):
    """Returns the comment at the head of a file as one line."""
    lines = []
    for line in path.read_text("utf8").splitlines():
        if not line.startswith("--"):
            break
        lines.append(line[2:].strip())
    return " ".join(lines)


def listing():
    """Returns the list as text."""
    taken, lines, last = taken_names(), [INTRODUCTION], None
    for crate, file, path in lemma_files():
        if crate != last:
            lines.append(f"## {crate}\n")
            last = crate
        names = ", ".join(f"`{name}`" for name in sorted(taken.get((crate, file), ())))
        about = first_comment(path).removesuffix(".")
        text = f"**{file}**: {about}" + (f". Taken: {names}" if names else "")
        wrapped = textwrap.wrap(
            text, 98, initial_indent="- ", subsequent_indent="  ", break_on_hyphens=False
        )
        lines.append("\n".join(wrapped))
    text = "\n".join(lines) + "\n"
    return re.sub(r"\n(## .*\n)", r"\n\n\1", text).replace("\n\n\n", "\n\n")


def faults():
    """Gives each lemma file without a sentence at its head, and each name without a file."""
    names = set()
    for crate, file, path in lemma_files():
        names.update((file, path.stem))
        if not re.match(r"[^\s].*\.", first_comment(path)):
            yield f"{path.relative_to(ROOT)} doesn't begin with a sentence on what it is about"
    below = PAGE.read_text("utf8").split("\n- **", 1)[1]
    for name in re.findall(r"`([\w*]+)`", below):
        if not any(fnmatch.fnmatchcase(it, name) for it in names):
            yield f"docs/LEMMAS.md names `{name}`, and no crate has such a lemma file"


def main(choice):
    if choice == "":
        print(listing(), end="")
    elif choice == "--write":
        LIST.parent.mkdir(exist_ok=True)
        LIST.write_text(listing(), "utf8")
    elif choice == "--check":
        found = list(faults())
        if found:
            sys.exit("\n".join(found))
    else:
        sys.exit(__doc__)


if __name__ == "__main__":
    main("".join(sys.argv[1:]))
