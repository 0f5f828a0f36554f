#!/usr/bin/env python3
"""Checks the links of all pages: fails where a file or a heading that one names doesn't exist.

Links to other sites are not followed, nor are those inside code. A heading's name is made as the
sites that host repositories make it: in lower case, without punctuation, with - for a space.
"""
import re
import subprocess
import sys
from pathlib import Path

ROOT = Path(__file__).resolve().parent.parent
LINK = re.compile(r"\[[^\]]*\]\(([^)\s]+)\)")


def without_code(text):
    return re.sub(r"(?m)^    .*|^```[\s\S]*?^```|`[^`\n]*`", "", text)


def headings(text):
    """Gives the name by which each heading of a page is linked to."""
    for heading in re.findall(r"(?m)^#+ +(.*)$", re.sub(r"(?m)^```[\s\S]*?^```", "", text)):
        words = LINK.sub(lambda link: link.group().split("](")[0][1:], heading).lower()
        yield re.sub(r"[^\w\- ]", "", words).strip().replace(" ", "-")


def faults(page):
    """Gives what is wrong with the links of a page."""
    for target in LINK.findall(without_code(page.read_text("utf8"))):
        if re.match(r"[a-z]+:", target) or "::" in target:
            continue
        name, _, heading = target.partition("#")
        file = (page.parent / name).resolve() if name else page
        if not file.exists():
            yield f"{page.relative_to(ROOT)}: there is no {target}"
        elif heading and heading not in headings(file.read_text("utf8")):
            yield f"{page.relative_to(ROOT)}: {name or page.name} has no heading {heading}"


def main():
    listed = subprocess.run(
        ["git", "ls-files", "*.md"], cwd=ROOT, check=True, capture_output=True, text=True
    )
    pages = [ROOT / line for line in listed.stdout.splitlines() if (ROOT / line).is_file()]
    found = [fault for page in pages for fault in faults(page)]
    if found:
        sys.exit("\n".join(found))


main()
