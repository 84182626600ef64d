"""Compiles a program for each check, asks it, and counts the instructions that a check executes."""
import os
import pathlib
import platform
import re
import shlex
import subprocess

HERE = pathlib.Path(__file__).resolve().parent
ROOT = HERE.parent
OUT = ROOT / "target" / "bench"
ARCHIVE = ROOT / "target" / "staticlib" / "libcollector.a"
LACKING = "no target/staticlib/libcollector.a, which `tools/build collector` makes"

# For x86-64, on any processor.
CC = ROOT / "tools" / "cc"
START = ROOT / "tools" / "start"

# A check is a function of one form; beside answer.c its program needs these.
READER, WHOLE, STEPS, RUNS = "reader_whole", "ipdr_whole", "by_steps", "by_runs"
PARTS = {READER: [HERE / "reader.c"], WHOLE: [ARCHIVE], STEPS: [HERE / "steps.c", ARCHIVE], RUNS: [HERE / "steps.c", ARCHIVE]}

COMPILER = shlex.split(os.environ.get("CC", "clang"))
WARNINGS = ["-std=c11", "-Wall", "-Wextra", "-Werror"]
MEASURED = ["-O2"]
SANITIZED = ["-O1", "-fsanitize=address,undefined", "-fno-sanitize-recover=all"]

NATIVE = platform.machine() == "x86_64"

# The C library sets long arrays by one repeating instruction, which callgrind counts once for each octet; told not to,
# it uses stores, each of which is an instruction.
PLAIN_STORES = dict(os.environ, GLIBC_TUNABLES="glibc.cpu.x86_rep_stosb_threshold=1073741824")

# The emulator writes a line for each instruction that it executes, and for each turn of a repeating one.
LINE_EACH = dict(PLAIN_STORES, QEMU_ONE_INSN_PER_TB="1", QEMU_LOG="nochain,exec")


def ours_is_there():
    return ARCHIVE.exists()


def question(octets):
    """The probe's commands that have a document checked."""
    return b"D" + len(octets).to_bytes(8, "big") + octets + b"w"


def build(check, flags=MEASURED, mark="", compiler=(CC,)):
    """The program that asks a check, compiled with these flags; the mark keeps programs of one check apart."""
    program = OUT / (check + mark)
    program.parent.mkdir(parents=True, exist_ok=True)
    # Bound when it starts, so that the first call of a library's function costs no more than the next;
    # and without debug information, of which valgrind does not read every edition.
    run([*compiler, *WARNINGS, *flags, f"-DCHECK={check}", f"-I{ROOT / 'include'}", HERE / "answer.c", *PARTS[check],
         "-Wl,-z,now,--strip-debug", "-o", program])
    return program


def run(command):
    """A command that says itself what is wrong."""
    if subprocess.run([str(word) for word in command]).returncode != 0:
        raise SystemExit(f"bench: {command[0]} failed")


def ask(command, questions):
    """What a program that speaks the probe's commands answers, a line for each question, and its exit status."""
    answered = subprocess.run([str(word) for word in command], input=questions, stdout=subprocess.PIPE)
    return answered.stdout.decode().splitlines(), answered.returncode


def count(program, check, octets):
    """The answer to one check of a document, and the instructions that it executes."""
    return count_by_callgrind(program, check, octets) if NATIVE else count_by_emulator(program, octets)


def count_by_callgrind(program, check, octets):
    """Counts from the check's first instruction to its return, with all that it calls."""
    command = ["valgrind", "--tool=callgrind", f"--toggle-collect={check}", "--callgrind-out-file=/dev/null", str(program)]
    told = subprocess.run(command, input=question(octets), capture_output=True, check=True, env=PLAIN_STORES)
    return told.stdout.decode().strip(), int(re.search(r"Collected *: *(\d+)", told.stderr.decode())[1])


def count_by_emulator(program, octets):
    """The emulator's lines go to standard error, and the program marks there where its check begins and ends."""
    asked = OUT / "question"
    asked.write_bytes(question(octets))
    with asked.open("rb") as stdin:
        running = subprocess.Popen([START, program, "marked"], stdin=stdin, stdout=subprocess.PIPE, stderr=subprocess.PIPE, env=LINE_EACH)
    counts = between_marks(running.stderr)
    answer, _ = running.communicate()
    if running.returncode != 0 or len(counts) != 4:
        raise SystemExit(f"bench: {program.name} ended with status {running.returncode}, {len(counts) - 1} marks")
    _, mark, mark_and_check, _ = counts
    return answer.decode().strip(), mark_and_check - mark


def between_marks(lines):
    """How many lines stand before, between and behind the lines that are marks."""
    counts = [0]
    for line in lines:
        if line == b"mark\n":
            counts.append(0)
        else:
            counts[-1] += 1
    return counts
