"""
Counts the instructions of every check on every measured document, or on those named, and prints the figures as
Markdown; with --small on those of 64 KiB alone.
"""
import argparse
import datetime
import subprocess
import sys

import documents
import programs
from counts import NAMES, counted, ratio


def checks():
    """The checks that can be counted: ours only where their archive was made."""
    if programs.ours_is_there():
        return list(NAMES)
    print(f"bench: {programs.LACKING}; so the C reader alone is counted", file=sys.stderr)
    return [programs.READER]


def cell(value):
    if value is None:
        return "-"
    if isinstance(value, float):
        return f"{value:.3f}"
    return f"{value:,}" if isinstance(value, int) else value


def print_table(head, rows):
    print("| " + " | ".join(head) + " |")
    print("|" + "---|" * len(head))
    for row in rows:
        print("| " + " | ".join(cell(value) for value in row) + " |")
    print()


def print_counts(counts, shapes, size):
    def row(shape):
        reader, whole, runs, steps = (counts.of(check, shape, size) for check in NAMES)
        return [shape, int(counts.rows[shape, size]), reader, whole, ratio(whole, reader),
                runs, ratio(runs, whole), ratio(runs, reader), steps, ratio(steps, whole)]
    print_table(["document", "rows", "C reader", "whole check", "whole / C",
                 "by runs", "runs / whole", "runs / C", "by steps", "steps / whole"],
                map(row, shapes))


def print_growth(counts, shapes):
    def row(check, shape):
        all_small, all_large = (counts.per_octet(check, shape, size) for size in ("small", "large"))
        rows_small, rows_large = (counts.per_octet_of_rows(check, shape, size) for size in ("small", "large"))
        return [shape, NAMES[check], all_small, all_large, ratio(all_large, all_small),
                rows_small, rows_large, ratio(rows_large, rows_small)]
    print_table(["document", "check", "64 KiB", "1 MiB", "ratio", "rows, 64 KiB", "rows, 1 MiB", "ratio"],
                [row(check, shape) for shape in shapes for check in NAMES if counts.of(check, shape)])


def print_layouts(counts):
    """What layouts cost: those of `many` without rows, a sixteenth and all of them, less a document that has next to none."""
    def row(check):
        less = ("short", "large bare")
        few, all_of_them = (counts.per_octet_between(check, ("many", size), less) for size in ("small bare", "large bare"))
        return [NAMES[check], few, all_of_them, ratio(all_of_them, few), counts.per_octet(check, "many", "crowded")]
    print_table(["check", "4 layouts", "64 layouts", "ratio", "64 KiB, half of it layouts"],
                [row(check) for check in NAMES if counts.of(check, "many")])


def first_line(command):
    return subprocess.run(command, capture_output=True, check=True).stdout.decode().splitlines()[0]


def counter():
    return f"callgrind, {first_line(['valgrind', '--version'])}" if programs.NATIVE else "the kit's emulator"


def print_head():
    compiler = first_line([*programs.COMPILER, "--version"])
    print(f"## Counted on {datetime.date.today().isoformat()}\n")
    print(f"By {counter()}; the C reader compiled with {' '.join(programs.MEASURED)} by {compiler}.\n")


def print_small(shapes):
    counts = counted(checks(), documents.small(shapes))
    print_head()
    print("Instructions of one call on a document of just under 64 KiB:\n")
    print_counts(counts, shapes, "small")


def print_all(shapes):
    counts = counted(checks(), documents.measured(shapes))
    print_head()
    print("Instructions of one call on a document of just under 1 MiB:\n")
    print_counts(counts, shapes, "large")
    print("Instructions for each octet, and for each octet of rows (the same document without rows taken away):\n")
    print_growth(counts, shapes)
    if {"short", "many"} <= set(shapes):
        print("Instructions for each octet of layouts, and for each octet of a document of which half is layouts:\n")
        print_layouts(counts)


def main():
    words = argparse.ArgumentParser(prog="bench/run")
    words.add_argument("--small", action="store_true", help="documents of 64 KiB alone")
    words.add_argument("document", nargs="*", help=f"of {', '.join(documents.NAMED)}; the first five if none is named")
    given = words.parse_args()
    unknown = set(given.document) - set(documents.NAMED)
    if unknown:
        words.error(f"no document {', '.join(sorted(unknown))}; there are {', '.join(documents.NAMED)}")
    (print_small if given.small else print_all)(given.document or list(documents.SHAPES))


main()
