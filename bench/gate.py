"""
Counts the checks that are meant to be fast on the five documents of 64 KiB. Counts are exact and repeatable, so a
limit on them is no matter of chance.
"""
import sys

import counts
import documents
import programs

HELD = [programs.WHOLE, programs.RUNS]

# Shares of the C reader's count. Strings of ASCII alone must gain by it, and those of other letters may not lose.
LIMIT = 0.9
LIMITS = {("strings", programs.WHOLE): 0.5, ("letters", programs.WHOLE): 1.0, ("letters", programs.RUNS): 1.0}


def main():
    if not programs.ours_is_there():
        raise SystemExit(f"bench: {programs.LACKING}")
    of = counts.counted([programs.READER, *HELD], documents.small()).of
    failed = 0
    for shape in documents.SHAPES:
        for check in HELD:
            limit = LIMITS.get((shape, check), LIMIT)
            ratio = of(check, shape, "small") / of(programs.READER, shape, "small")
            failed += ratio > limit
            print(f"{shape}, {counts.NAMES[check]}: {ratio:.3f} of the C reader" + (f", above {limit}" if ratio > limit else ""))
    print(f"{len(HELD) * len(documents.SHAPES) - failed} passed, {failed} failed")
    return 1 if failed else 0


sys.exit(main())
