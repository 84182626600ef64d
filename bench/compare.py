"""
Compares the C reader with the second program, and with ours if its archive is
there, on the measured documents and on damaged ones. COUNT and SEED say how
many damaged ones and which; with --calls, ours alone are compared. The last
line is `N passed, M failed`.
"""
import collections
import sys

import damage
import programs

TABLED = [*range(1, 17), 24]  # the refusals that a whole check can give


def second():
    manifest = programs.ROOT / "second" / "Cargo.toml"
    target = programs.ROOT / "second" / "target"
    programs.run(["cargo", "build", "--release", "--offline", "--quiet", "--manifest-path", manifest, "--target-dir", target])
    return [target / "release" / "second", "c-probe"]


def readers():
    """What our calls are measured against, and the same with every access checked."""
    yield "the C reader", started(programs.READER)
    yield "the C reader, sanitized", [programs.build(programs.READER, programs.SANITIZED, "-sanitized", programs.COMPILER)]


def calls():
    yield "the whole check", started(programs.WHOLE)
    yield "the reading by steps", started(programs.STEPS)
    yield "the reading by runs", started(programs.RUNS)


def compared(calls_alone):
    """The programs that are held to the second one."""
    if calls_alone:
        if not programs.ours_is_there():
            raise SystemExit(f"bench: {programs.LACKING}")
        return list(calls())
    return [*readers(), *(calls() if programs.ours_is_there() else [])]


def started(check):
    return [programs.START, programs.build(check)]


def batches(cases, most=32 << 20):
    """Cases in lots of a size that programs can take at once."""
    lot, size = [], 0
    for case in cases:
        lot.append(case)
        size += len(case[1])
        if size > most:
            yield lot
            lot, size = [], 0
    yield lot


class Tally:
    def __init__(self):
        self.passed = collections.Counter()
        self.failed = collections.Counter()

    def add(self, program, name, octets, expected, answer):
        if answer == expected:
            self.passed[program] += 1
            return
        if not self.failed[program]:
            saved = programs.OUT / "difference.ipdr"
            saved.write_bytes(octets)
            print(f"{program}: {name}: {answer}, the second program: {expected}; saved as target/bench/{saved.name}")
        self.failed[program] += 1


def compare_lot(lot, reference, others, tally, met):
    questions = b"".join(programs.question(octets) for _, octets in lot)
    expected, _ = programs.ask(reference, questions)
    met.update(" ".join(line.split()[:2]) if line.startswith("refused") else "accepted" for line in expected)
    for program, command in others:
        answers, status = programs.ask(command, questions)
        answers += ["no answer"] * (len(lot) - len(answers))
        for (name, octets), right, answer in zip(lot, expected, answers, strict=True):
            tally.add(program, name, octets, right, answer)
        if status != 0:
            print(f"{program}: ended with status {status}")
            tally.failed[program] += 1


def main(words):
    calls_alone = words[:1] == ["--calls"]
    count, seed = [*words[calls_alone:], *["3000", "1"][len(words) - calls_alone:]]
    reference, others = second(), compared(calls_alone)
    tally, met = Tally(), collections.Counter()
    for lot in batches(damage.all_cases(int(count), int(seed))):
        compare_lot(lot, reference, others, tally, met)
    print("answers met: " + ", ".join(f"{answer}: {met[answer]}" for answer in ["accepted", *(f"refused {n}" for n in TABLED)]))
    for n in TABLED:
        if not met[f"refused {n}"]:
            print(f"refusal {n} was never met")
            tally.failed["inputs"] += 1
    for program, _ in others:
        print(f"{program}: {tally.passed[program]} the same, {tally.failed[program]} not")
    passed, failed = sum(tally.passed.values()), sum(tally.failed.values())
    print(f"{passed} passed, {failed} failed")
    return 0 if passed and not failed else 1


sys.exit(main(sys.argv[1:]))
