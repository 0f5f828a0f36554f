"""Prints the tables of docs/SPEED.md: what decodings take from memory and as whole programs, beside
other decoders, and the memory held.

decode.py CRATES TOOLS FOLDER [PEER..]: the folder of crates whose programs are measured, a folder
with what ./decode compiles, one for the files that are decoded, and programs of other decoders
(README.md).
"""

import os
import shutil
import sys
from pathlib import Path

from files import AS_STORED, SIZES, cases, layout_cases, pillow_cases, program_cases, written
from markdown import head, line
from programs import PARTIAL, TURBO, bytes_by_header, library_programs, pillow_programs
from programs import programs_for_v2, repeated_programs, whole_programs
from ranges import least_times, ranges_of_ours, ranges_to
from samples import print_profile
from timing import ratio, times_from_memory, times_of_programs

GREATEST = "%dx%d" % SIZES[-1]


def print_head(heading, *titles):
    """Prints a heading and the head of a table."""
    print(f"\n## {heading}\n\n{head(titles)}", flush=True)


def ratio_titles(programs):
    return [f"to {program.name}" for program in programs[1:]]


def print_times(titles, times):
    """Prints our least and median time after the titles of a line, and its ratio to others'."""
    ours, *others = times
    figures = ours.in_ms() if ours else "refused"
    print(line([*titles, figures, *(ratio(ours, theirs) for theirs in others)]), flush=True)


def time_from_memory(programs, folder, decoded):
    """The times of decodings from memory of each case."""
    results = {}
    for case in decoded:
        results[case] = times_from_memory(programs, case, written(case, folder))
        print(case.title(), case.coding(), case.layout, file=sys.stderr)
    return results


def print_from_memory(heading, programs, folder, results):
    """Prints the table of decodings from memory."""
    titles = ["coding", "file (kB)", f"{programs[0].name} (ms)", *ratio_titles(programs)]
    print_head(heading, "picture", *titles)
    for case, times in results.items():
        size = f"{written(case, folder).stat().st_size / 1e3:.1f}"
        print_times([case.title(), case.coding(), size], times)


def print_ranges_of_ours(heading, programs, results):
    """Prints for each kind of case the range of our ratios to each program's least times."""
    print_head(heading, programs[0].name, *ratio_titles(programs))
    for kind, rows in least_times(results).items():
        print(line([kind, *ranges_of_ours(rows)]), flush=True)


def print_ranges_to_turbo(programs, results):
    """Prints for each kind of case the range of each program's least times to libjpeg-turbo's."""
    names = [program.name for program in programs]
    turbo = names.index(TURBO)
    print("\n" + head([f"to {TURBO}", *names[:turbo], *names[turbo + 1 :]]))
    for kind, rows in least_times(results).items():
        ranges = ranges_to(turbo, rows)
        if ranges:
            print(line([kind, *ranges]))


def print_layouts(programs, results):
    """Prints the table of layouts: the C library's times, beside those of libjpeg-turbo, which has
    these layouts too, and beside its own for the picture as it is stored."""
    titles = [f"{programs[0].name} (ms)", *ratio_titles(programs), "to the same, as stored"]
    print_head("Layouts, from memory", "picture", "coding", "layout", *titles)
    for case, times in results.items():
        stored = results[case._replace(layout=AS_STORED)][0]
        print_times([case.title(), case.coding(), case.layout], [*times, stored])


def time_programs(programs, folder):
    """Prints the table of whole programs at the greatest size."""
    titles = ["file (MB)", f"{programs[0].name} (ms)", *ratio_titles(programs)]
    print_head(f"Whole programs, {GREATEST}", "coding", *titles)
    for case in program_cases():
        path = written(case, folder)
        size = f"{path.stat().st_size / 1e6:.1f}"
        print_times([case.coding(), size], times_of_programs(programs, case, path))


def print_memory(programs, zaxbriar, folder):
    """Prints the most memory that whole programs hold, beside what a file's header says."""
    held = [program for program in programs if program.name in ("zaxbriar pnm", PARTIAL, "djpeg")]
    titles = ["by the header (MB)", *(f"{program.name} (MB)" for program in held)]
    print_head(f"Memory held, {GREATEST}", "coding", *titles)
    for case in program_cases():
        path = written(case, folder)
        figures = [bytes_by_header(zaxbriar, case, path)]
        figures += [program.peak(case, path) for program in held]
        print(line([case.coding(), *(f"{figure / 1e6:.1f}" for figure in figures)]), flush=True)


def main(crates, tools, folder, *peers):
    # A program that uses several threads has one processor too, so that its time is comparable.
    os.sched_setaffinity(0, {max(os.sched_getaffinity(0))})
    zaxbriar = f"{crates}/zaxbriar_cli/out/zaxbriar_cli"
    jpegraw = f"{crates}/jpegraw/out/jpegraw"
    tools, folder = Path(tools), Path(folder)
    decoding = tools / "decoding"
    from_memory = list(repeated_programs(decoding, tools, peers))
    results = time_from_memory(from_memory, folder, cases())
    print_ranges_of_ours("Ranges, from memory", from_memory, results)
    print_ranges_to_turbo(from_memory, results)
    print_from_memory("From memory", from_memory, folder, results)
    with_layouts = list(library_programs(tools))
    print_layouts(with_layouts, time_from_memory(with_layouts, folder, layout_cases()))
    pillow = list(pillow_programs(Path(crates).parent / "bindings/clients"))
    results = time_from_memory(pillow, folder, pillow_cases())
    print_from_memory("By Pillow, from memory", pillow, folder, results)
    for_v2 = list(programs_for_v2(tools, peers))
    print_ranges_of_ours("Builds for x86-64-v2", for_v2, time_from_memory(for_v2, folder, cases()))
    whole = list(whole_programs(zaxbriar, jpegraw, peers))
    time_programs(whole, folder)
    print_memory(whole, zaxbriar, folder)
    if shutil.which("perf"):
        print_profile(decoding, folder)


if __name__ == "__main__":
    main(*sys.argv[1:])
