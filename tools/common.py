"""What the tools in Python share: how they count and tell, how they take cases, and how they run a program over faults.

tools/lib.sh has the same for those in shell. The last line of each of them is 'N passed, M failed', with ', K skipped' where something
was left out.
"""
import os
import shutil
import subprocess
import sys
from multiprocessing import Pool
from pathlib import Path

ROOT = Path(__file__).resolve().parent.parent
ME = os.path.basename(sys.argv[0])
OUT = ROOT / "out" / ME
LIBRARY = OUT / "faults.so"


class Count:
    """How many have passed, failed and been left out."""

    def __init__(self):
        self.passed = self.failed = self.skipped = 0

    def tell(self, holds, told, count=1):
        """Counts what has passed where it holds; else it has failed, and the text says how."""
        if holds:
            self.passed += count
        else:
            self.failed += 1
            print(f"{ME}: {told}", flush=True)

    def skip(self, told):
        """Counts what was left out, and says why."""
        self.skipped += 1
        print(f"{ME}: {told}", flush=True)

    def tell_each(self, places, works):
        """Tells what each work, a function with its words, yields: (holds, told) and maybe a count. So many processes go side by side."""
        with Pool(places) as pool:
            for marks in pool.imap_unordered(_all_of, works):
                for holds, told, *number in marks:
                    self.tell(holds, told[:400], *number)

    def finish(self):
        """Writes the last line, and ends. Nothing at all is a failure."""
        self.failed += not (self.passed or self.failed or self.skipped)
        print(f"{self.passed} passed, {self.failed} failed" + f", {self.skipped} skipped" * (self.skipped > 0))
        sys.exit(self.failed > 0)


def _all_of(work):
    function, *words = work
    return list(function(*words))


def make_folder():
    """Makes the folder of out/ for what the tool makes, empty."""
    shutil.rmtree(OUT, ignore_errors=True)
    OUT.mkdir(parents=True)


# ---- Programs and cases.


def need_rt():
    """Ends where rt isn't there, before anything else is tried."""
    if not shutil.which("rt"):
        print(f"{ME}: rt not found; it is the command of the Rattle kit. README.md, 'First commands', says how to get it", file=sys.stderr)
        sys.exit(127)


def build_programs():
    """Sees to it that RESIL_BUILT and RESIL_LOOK_BUILT name the programs: else those are taken that ./resil proves and builds."""
    if not (os.environ.get("RESIL_BUILT") and os.environ.get("RESIL_LOOK_BUILT")):
        need_rt()
        if subprocess.run([ROOT / "resil", "prove"], check=False).returncode:
            sys.exit(1)
        os.environ.update(RESIL_BUILT=str(ROOT / "out/resil"), RESIL_LOOK_BUILT=str(ROOT / "out/resil_look"))


def called(words):
    """The words of a command, behind the program that answers it."""
    return [os.environ["RESIL_LOOK_BUILT" if words[:1] in (["judge"], ["stats"], ["timeline"], ["simulate"]) else "RESIL_BUILT"], *words]


def case_names():
    return [line.split()[0] for line in (OUT / "cases/names").read_text().splitlines()]


class Case:
    """A case that lies in out/: its input and answer, its words, the status that is wanted, and whether its memory is bounded."""

    def __init__(self, name):
        self.name, base = name, f"{OUT}/cases/{name}"
        self.input, self.answer = Path(base + ".resil"), Path(base + ".out").read_bytes()
        status, space, *self.words = os.fsdecode(Path(base + ".how").read_bytes()).split("\n")[:-1]
        self.wanted, self.is_bounded, self.call = int(status), space != "-", called(self.words)


# ---- Faults.


def has_faults(count):
    """Compiles tools/faults.c into the folder. Where there is no cc, that counts as a failure."""
    if not shutil.which("cc"):
        count.tell(False, "there is no cc, so no call can fail or be refused")
        return False
    subprocess.run(["cc", "-O1", "-shared", "-fPIC", "-o", LIBRARY, ROOT / "tools/faults.c", "-ldl"], check=True)
    return True


def with_faults(**faults):
    """The environment of a program that meets these faults."""
    return {**os.environ, "LD_PRELOAD": str(LIBRARY), **{name: str(value) for name, value in faults.items()}}


class Runs:
    """Runs in a row of a sweep that ended alike: the first and the last n, the status, what they met, the text, and what the program
    says of it on standard error."""

    def __init__(self, row, text):
        self.first, self.last, self.status, self.met = map(int, row.split())
        self.said = b"\n".join(line for line in text.split(b"\n") if line.startswith(b"resil: "))
        self.text = text.partition(b"resil: ")[0]


def sweep(what, fault, given, call, judge, **others):
    """Runs a program with each n of a fault, until none is met. Of runs in a row that end alike `judge` says whether they are right,
    or None where they are and don't count. Yields marks."""
    shown = f"{OUT}/{os.getpid()}.sweep"
    environment = with_faults(FAULT_SWEEP=fault, FAULT_SHOWN=shown, **others)
    with open(given, "rb") as file:
        rows = subprocess.run(call, stdin=file, stdout=subprocess.PIPE, env=environment, check=False).stdout.splitlines()
    runs = None
    for line, row in enumerate(rows, 1):
        file = Path(f"{shown}.{line}")
        runs = Runs(row, file.read_bytes())
        file.unlink()
        is_right = judge(runs)
        if is_right is not None:
            told = f"{what} with {fault}={runs.first} to {runs.last}: its status is {runs.status}, it writes {runs.text}"
            yield is_right, told, runs.last - runs.first + 1
    if not runs or runs.met:
        yield False, f"{what} with {fault}: there is no run without it"
