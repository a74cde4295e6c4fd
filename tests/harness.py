"""What unittest lacks for the tests of both products: comparisons by name, commands, side-by-side runs, a closing line.

A script of tests is a file whose classes derive from Case, and that ends in `main()`. All of unittest's options serve:
`tests/documents -k links -v` runs the tests whose names have 'links'.
"""
from __future__ import annotations

import contextlib
import functools
import glob
import os
import re
import resource
import shutil
import subprocess
import sys
import tempfile
import time
import unittest
from concurrent.futures import ThreadPoolExecutor, as_completed
from typing import Any, Iterable, Iterator, NamedTuple, NoReturn, Sequence

TOP = os.path.dirname(os.path.dirname(os.path.realpath(__file__)))
PROGRAM = os.path.abspath(os.environ.get("CMH") or f"{TOP}/bin/cmh")
IS_WHOLE = "CMH_IN_SHORT" not in os.environ  # whether what repeats others is tried too: by `tests/quick --whole`
SHARE = 1 if IS_WHOLE else 3  # of many cases of a kind, one in so many is tried
SECONDS = 900  # no command of a test takes so long, also on a busy machine
PYTHONS = [f"3.{minor}" for minor in range(8, 14)]  # by which the tools run
DEAREST = 6  # tests of a script whose processor time is said
TOLD = 600  # characters of what is said of a failure in its line
JAVAC = ["javac", "-J-XX:TieredStopAtLevel=1", "-J-XX:+UseSerialGC"]  # in half the processor time
CLOSING = re.compile(r"(\d+) passed, (\d+) failed(?:, (\d+) skipped)?\n?")
# What is said of a fault of the tools: by themselves, and by Python where they haven't caught it.
OWN_FAULT = re.compile(rb"this is a fault of cmh")
TRACEBACK = re.compile(rb"^Traceback \(most recent call last\):", re.M)
TOOL = re.compile(r"\b(?:cmh-(?:dump|explain|stall)|cmh_[a-z]+|take-[a-z]+)\b")
MEANT: list[bool] = []  # has something while a test has the tools show a fault
# What `go build` and others keep lies in one's home, and without its name they refuse.
os.environ.setdefault("HOME", os.path.expanduser("~"))


# Tests


class Ran(NamedTuple):
    """What a command has said."""

    status: int
    out: str
    err: str


class RanBytes(NamedTuple):
    """What a command has said, byte for byte."""

    status: int
    out: bytes
    err: bytes


def run_bytes(words: Sequence[Any], stdin: Any = b"", **more: Any) -> RanBytes:
    """Runs a command to its end. `stdin` is a text or bytes, or a file."""
    given = {"stdin": stdin} if isinstance(stdin, int) or hasattr(stdin, "fileno") else {"input": encoded(stdin)}
    pipes = {"stdout": subprocess.PIPE, "stderr": subprocess.PIPE}
    how: dict[str, Any] = {"timeout": SECONDS, "check": False, **pipes, **given, **more}
    done = subprocess.run(words, **how)
    check_faults(words, done.stdout or b"", done.stderr or b"")
    return RanBytes(done.returncode, done.stdout or b"", done.stderr or b"")


def check_faults(words: Sequence[Any], *said: str | bytes) -> None:
    """Raises AssertionError where a command of the tools says that something is a fault of their own, unless that is
    meant. A program of a test may show a traceback."""
    patterns = [OWN_FAULT, TRACEBACK] if TOOL.search(" ".join(map(str, words))) else [OWN_FAULT]
    for text in map(encoded, () if MEANT else said):
        if any(pattern.search(text) for pattern in patterns):
            raise AssertionError(f"a fault of the tools, by {words}: {text[-2000:]!r}")


@contextlib.contextmanager
def faults_meant() -> Iterator[None]:
    """Lets the tools show faults of their own within a block."""
    MEANT.append(True)
    try:
        yield
    finally:
        MEANT.pop()


def run(words: Sequence[Any], stdin: Any = b"", **more: Any) -> Ran:
    """Runs a command to its end, and reads what it says as a text."""
    done = run_bytes(words, stdin, **more)
    return Ran(done.status, done.out.decode("utf-8", "replace"), done.err.decode("utf-8", "replace"))


def encoded(text: str | bytes) -> bytes:
    return text.encode("utf-8", "surrogatepass") if isinstance(text, str) else text


def read_bytes(path: str) -> bytes:
    """A file, whose path counts from the top of the repository."""
    with open(os.path.join(TOP, path), "rb") as file:
        return file.read()


def read(path: str) -> str:
    """The text of a file, whose path counts from the top of the repository."""
    return read_bytes(path).decode("utf-8")


def write(path: str, text: str | bytes) -> str:
    """Writes a file, and returns its path."""
    with open(path, "wb") as file:
        file.write(encoded(text))
    return path


class Case(unittest.TestCase):
    """A test whose comparisons have names. One that fails doesn't end the test."""

    maxDiff = 4000

    def same(self, name: str, found: object, wanted: object) -> None:
        with self.subTest(name):
            self.assertEqual(found, wanted)

    def holds(self, name: str, found: object, more: object = "") -> None:
        with self.subTest(name):
            self.assertTrue(found, more)

    def has(self, name: str, text: str, *words: str) -> None:
        """A text has some words, in their order."""
        at = 0
        with self.subTest(name):
            for word in words:
                at = text.find(word, at)
                self.assertGreaterEqual(at, 0, f"{word!r} isn't there, or not in its place, in {text[:2000]!r}")
                at += len(word)

    def folder(self) -> str:
        """Returns a new folder, which is removed at the end of the test."""
        made = tempfile.TemporaryDirectory(prefix="cmh-")
        self.addCleanup(made.cleanup)
        return os.path.realpath(made.name)

    def need(self, *commands: str) -> None:
        """Skips the test if a command isn't there."""
        missing = [it for it in commands if not shutil.which(it)]
        if missing:
            self.skipTest(f"no {', no '.join(missing)}")

    def need_whole(self) -> None:
        """Skips a test that is long, and repeats what others try, unless all is asked for."""
        if not IS_WHOLE:
            self.skipTest("only tests/quick --whole tries it")

    def skip(self, name: str, why: str) -> None:
        """Skips one comparison of a test, and goes on."""
        with self.subTest(name):
            self.skipTest(why)


def processor_time() -> float:
    """The seconds that processors have worked for this process, and for those that it has waited for."""
    spent = os.times()
    return sum(spent[:4])


def name_of(test: Any) -> str:
    return str(test.id()).replace("__main__.", "")


class Result(unittest.TextTestResult):
    """Counts each comparison, tells at once what fails and what is skipped, and keeps what each test costs."""

    def __init__(self, *more: Any, **named: Any) -> None:
        super().__init__(*more, **named)
        self.passed, self.failed, self.before = 0, 0, 0.0
        self.costs: list[tuple[float, str]] = []

    def startTest(self, test: Any) -> None:
        self.before = processor_time()
        super().startTest(test)

    def stopTest(self, test: Any) -> None:
        super().stopTest(test)
        self.costs.append((processor_time() - self.before, name_of(test)))

    def dearest(self) -> str:
        """The tests that have taken most processor time, if they took more than a second."""
        return ", ".join(f"{name} {cost:.0f} s" for cost, name in sorted(self.costs)[:-DEAREST - 1:-1] if cost > 1)

    def addSubTest(self, test: Any, subtest: Any, err: Any) -> None:
        super().addSubTest(test, subtest, err)
        if err is None:
            self.count(True)
        else:
            self.tell(subtest, err)

    def addSuccess(self, test: Any) -> None:
        super().addSuccess(test)
        self.count(True)

    def addError(self, test: Any, err: Any) -> None:
        super().addError(test, err)
        self.tell(test, err)

    def addFailure(self, test: Any, err: Any) -> None:
        super().addFailure(test, err)
        self.tell(test, err)

    def addSkip(self, test: Any, reason: str) -> None:
        super().addSkip(test, reason)
        print(f"skipped {name_of(test)}: {reason}", flush=True)

    def tell(self, test: Any, err: Any) -> None:
        """Counts what fails, and says it in a line."""
        self.count(False)
        why = " ".join(f"{err[0].__name__}: {err[1]}".split())
        print(f"failed {name_of(test)}: {why[:TOLD]}", flush=True)

    def count(self, is_well: bool) -> None:
        self.passed, self.failed = self.passed + is_well, self.failed + (not is_well)


def main(words: Sequence[str] | None = None) -> NoReturn:
    """Runs the tests of the script that calls this, and ends with its closing line."""
    runner = unittest.TextTestRunner(stream=sys.stdout, verbosity=0, resultclass=Result)
    argv = [sys.argv[0], *(sys.argv[1:] if words is None else words)]
    result: Any = unittest.main(argv=argv, testRunner=runner, exit=False).result
    if not result.testsRun and not result.skipped:
        sys.exit(f"{argv[0]}: no test has run")
    if result.dearest():
        print(f"most processor time: {result.dearest()}")
    print(closing(result.passed, result.failed, len(result.skipped)), flush=True)
    sys.exit(0 if result.wasSuccessful() else 1)


def closing(passed: int, failed: int, skipped: int = 0) -> str:
    """The line that a script of tests ends with."""
    return f"{passed} passed, {failed} failed" + (f", {skipped} skipped" if skipped else "")


def build_preload(source: str, folder: str) -> str | None:
    """Makes a library of a C file, to be loaded before the C library, or returns nothing if there is no compiler."""
    compilers = [name for name in (os.environ.get("CC"), "cc", "gcc", "clang") if name and shutil.which(name)]
    if not compilers:
        return None
    made = f"{folder}/{os.path.basename(source)[:-len('.c')]}.so"
    words = [compilers[0], "-shared", "-fPIC", "-O1", "-o", made, os.path.join(TOP, source), "-ldl"]
    subprocess.run(words, check=True, stdin=subprocess.DEVNULL)
    return made


# Several Pythons


@functools.lru_cache(maxsize=None)
def pythons() -> dict[str, str]:
    """Returns the Pythons that are there, by those of PYTHONS: the one that runs this, and others in usual places. What
    only chooses among several takes as long as a small script, so it comes last."""
    found = {}
    for version in PYTHONS:
        places = [*sorted(glob.glob(os.path.expanduser(f"~/.pyenv/versions/{version}.*/bin/python3"))),
                  f"/usr/bin/python{version}", f"/usr/local/bin/python{version}", shutil.which(f"python{version}")]
        own = [sys.executable] if "%d.%d" % sys.version_info[:2] == version else []
        there = next((path for path in [*own, *filter(None, places)] if version_of(path) == version), None)
        found.update({version: there} if there else {})
    return found


def version_of(python: str) -> str:
    """Returns the version of a Python as 3.11, or nothing if it doesn't run: some only say how to install it."""
    try:
        ran = run([python, "-c", "import sys; print('%d.%d' % sys.version_info[:2])"])
    except OSError:
        return ""
    return ran.out.strip() if ran.status == 0 else ""


# Several scripts


PIPES: dict[str, Any] = {"stdin": subprocess.DEVNULL, "stdout": subprocess.PIPE, "stderr": subprocess.STDOUT,
                         "encoding": "utf-8", "errors": "replace"}
SUMMARY = "== summary"
LAST = 5  # lines that are said of a command that ends without its closing line


def minutes(seconds: float) -> str:
    return f"{int(seconds) // 60}:{int(seconds) % 60:02}"


def named_in(lines: list[str], word: str) -> list[str]:
    """The lines of a command that name what it skipped, or what has failed: where it has a summary, those of this, each
    with its script."""
    if SUMMARY in lines:
        return [it for it in lines[lines.index(SUMMARY):] if f": {word} " in it]
    return [it for it in lines if it.startswith(f"{word} ")]


class Measured(NamedTuple):
    """What a command has printed, how long it took, and the seconds that processors have worked for it and for all that
    it waited for."""

    status: int
    out: str
    took: float
    spent: float

    def cost(self) -> str:
        return f"{self.spent:.0f} s of processor time in {minutes(self.took)}"


def measured(words: Sequence[str], **how: Any) -> Measured:
    begun = time.monotonic()
    with subprocess.Popen(words, **PIPES, **how) as ran:
        out = ran.stdout.read() if ran.stdout else ""
        _, status, used = os.wait4(ran.pid, 0)
        ran.returncode = -os.WTERMSIG(status) if os.WIFSIGNALED(status) else os.WEXITSTATUS(status)
    return Measured(ran.returncode, out, time.monotonic() - begun, used.ru_utime + used.ru_stime)


class Summary:
    """Runs commands, and adds up their closing lines."""

    def __init__(self) -> None:
        self.passed, self.failed = 0, 0
        self.failures: list[str] = []
        self.skipped: list[str] = []
        self.lines: list[str] = []
        self.start = time.monotonic()

    def run(self, name: str, words: Sequence[str], **how: Any) -> bool:
        """Runs a command, passes on what it prints as it comes, and returns whether all is well."""
        print(f"== {name}", flush=True)
        printed = []
        with subprocess.Popen(words, **PIPES, **how) as ran:
            for line in ran.stdout or ():
                print(line, end="", flush=True)
                printed.append(line)
        return self.judge(name, "".join(printed), ran.returncode)

    def run_side_by_side(self, commands: Sequence[tuple[str, Sequence[str]]], waiting: Iterable[str],
                         **how: Any) -> None:
        """Runs commands, each a name and its words, as many at a time as there are processors, and beside them as many
        of those whose names are given as ones that mostly wait. Passes on what each has printed, once it ends."""
        number, apart = len(os.sched_getaffinity(0)), {*waiting}
        with ThreadPoolExecutor(number) as pool, ThreadPoolExecutor(number) as beside:
            running = {(beside if name in apart else pool).submit(measured, words, **how): name
                       for name, words in commands}
            for ended in as_completed(running):
                name, done = running[ended], ended.result()
                print(f"== {name}\n{done.out}", end="", flush=True)
                self.judge(name, done.out, done.status, f", {done.cost()}")

    def judge(self, name: str, printed: str, status: int, cost: str = "") -> bool:
        """Adds what the closing line of a command says, and returns whether all is well. A command that ends without
        one, or with a status that does not fit it, counts as one that failed."""
        lines = printed.splitlines()
        last = next(filter(None, map(CLOSING.fullmatch, reversed(lines))), None)
        passed, failed, skipped = (int(it or 0) for it in last.groups()) if last else (0, 0, 0)
        if not last or (status and not failed):
            failed += 1
        self.add(f"{name}: {last[0] if last else 'no closing line'}, status {status}{cost}", passed, failed)
        names = [*named_in(lines, "skipped"), *["skipped without a name"] * skipped]
        self.skipped += [f"{name}: {it}" for it in names[:skipped]]
        told = [*named_in(lines, "failed"), *([] if last else ["failed at its end: " + "; ".join(lines[-LAST:])])]
        self.failures += [f"{name}: {it}" for it in told[:failed]]
        return not failed

    def add(self, line: str, passed: int, failed: int) -> None:
        self.lines.append(line)
        self.passed, self.failed = self.passed + passed, self.failed + failed

    def close(self) -> int:
        """Prints the summary, with all that was skipped or has failed, and returns the status of the whole."""
        own, children = resource.getrusage(resource.RUSAGE_SELF), resource.getrusage(resource.RUSAGE_CHILDREN)
        spent = sum(it.ru_utime + it.ru_stime for it in (own, children))
        print(SUMMARY, *self.lines, *self.skipped, *self.failures, sep="\n")
        took, processors = minutes(time.monotonic() - self.start), len(os.sched_getaffinity(0))
        print(f"took {took} on {processors} processors, and {minutes(spent)} of their time")
        print(closing(self.passed, self.failed, len(self.skipped)), flush=True)
        return 1 if self.failed else 0
