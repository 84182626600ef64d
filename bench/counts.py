"""Counts the instructions of checks on documents, and says each count on standard error as soon as it is made."""
import sys

import programs

NAMES = {programs.READER: "C reader", programs.WHOLE: "whole check", programs.RUNS: "by runs", programs.STEPS: "by steps"}


class Counts:
    """What was counted, by check, shape and size."""

    def __init__(self):
        self.octets = {}
        self.rows = {}
        self.instructions = {}

    def add(self, check, program, shape, size, octets):
        answer, instructions = programs.count(program, check, octets)
        word, rows = answer.split(" ", 1)
        if word != "whole" or self.rows.setdefault((shape, size), rows) != rows:
            raise SystemExit(f"bench: {NAMES[check]} says `{answer}` of {shape} {size}")
        self.octets[shape, size] = len(octets)
        self.instructions[check, shape, size] = instructions
        print(f"{shape} {size}, {NAMES[check]}: {instructions:,}", file=sys.stderr, flush=True)

    def of(self, check, shape, size="large"):
        return self.instructions.get((check, shape, size))

    def per_octet(self, check, shape, size):
        return ratio(self.of(check, shape, size), self.octets[shape, size])

    def per_octet_of_rows(self, check, shape, size):
        """Without what the same document costs that has no rows, and without its octets."""
        return self.per_octet_between(check, (shape, size), (shape, f"{size} bare"))

    def per_octet_between(self, check, more, less):
        instructions = self.of(check, *more) - self.of(check, *less)
        return ratio(instructions, self.octets[more] - self.octets[less])


def counted(checks, documents):
    counts = Counts()
    built = {check: programs.build(check) for check in checks}
    for shape, size, octets in documents:
        for check, program in built.items():
            counts.add(check, program, shape, size, octets)
    return counts


def ratio(one, other):
    return None if one is None or other is None else one / other
