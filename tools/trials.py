"""What the tools that try the program share: its commands, the examples, and runs of it over files in memory.

It is no command of its own. The tools that import it stand beside it.
"""
import dataclasses
import os
import select
import signal
import subprocess
import sys
import time

TOP = os.path.dirname(os.path.dirname(os.path.realpath(__file__)))
# The commands that the program serves, as its usage line has them.
SERVED = ["run", "replay", "gen N", "load N"]
USAGE = f"usage: cctick {' | '.join(SERVED)}\n".encode()
# Those that read a script.
READING = ["replay", "run"]
# A run that takes longer hangs.
SECONDS = 60
MOST_BYTES = 1 << 20
DONE, USAGE_STATUS, REFUSED, READ_FAULT, WRITE_FAULT, NO_MEMORY = 0, 2, 3, 4, 5, 6


@dataclasses.dataclass
class Ended:
    """How a process ended: its status, what it wrote, and what it cost, which no comparison looks at."""

    status: object
    output: bytes = b""
    errors: bytes = b""
    seconds: float = dataclasses.field(default=0.0, compare=False)
    processor_seconds: float = dataclasses.field(default=0.0, compare=False)
    bytes_read: int = dataclasses.field(default=0, compare=False)

    def __str__(self):
        output = "somewhere else" if self.output is None else shown(self.output)
        return f"status {self.status}, standard output {output}, standard error {shown(self.errors)}"


def shown(text, most=600):
    return repr(text) if len(text) <= most else f"{text[:most]!r}.. ({len(text)} bytes)"


class Tests:
    """Counts tests, and says which failed."""

    def __init__(self):
        self.passed, self.failed = 0, 0

    def hold(self, what, came, expected):
        """Counts a test, and says what came where it is not what was expected."""
        if came == expected:
            self.passed += 1
            return
        self.failed += 1
        print(f"{what}:\n    expected {expected}\n    came     {came}")

    def status(self, subject):
        """Says how many passed, and returns the status to end with."""
        print(f"{subject}: {self.passed} passed, {self.failed} failed")
        return 0 if self.passed and not self.failed else 1


class Runs:
    """Runs the program, one process after the other, with files in memory as its three streams."""

    def __init__(self, program):
        self.program = program
        self.given, self.output, self.errors = (os.memfd_create(name) for name in ("given", "output", "errors"))

    def run(self, words, script=b"", seconds=SECONDS, environment=None):
        """Runs the program with these words over a script. One that hangs is ended, and its status says so."""
        for file, data in ((self.given, script), (self.output, b""), (self.errors, b"")):
            os.ftruncate(file, 0)
            os.lseek(file, 0, os.SEEK_SET)
            write_all(file, data)
            os.lseek(file, 0, os.SEEK_SET)
        moves = [(os.POSIX_SPAWN_DUP2, file, at) for at, file in enumerate((self.given, self.output, self.errors))]
        began = time.perf_counter()
        process = os.posix_spawn(
            self.program, [self.program, *words], os.environ if environment is None else environment,
            file_actions=moves, setsigdef=[signal.SIGPIPE, signal.SIGXFSZ],
        )
        hangs = not has_ended(process, seconds)
        if hangs:
            os.kill(process, signal.SIGKILL)
        _, status, usage = os.wait4(process, 0)
        return Ended(
            f"none after {seconds} seconds" if hangs else os.waitstatus_to_exitcode(status),
            read_all(self.output),
            read_all(self.errors),
            time.perf_counter() - began,
            usage.ru_utime + usage.ru_stime,
            os.lseek(self.given, 0, os.SEEK_CUR),
        )

    def close(self):
        for file in (self.given, self.output, self.errors):
            os.close(file)


def has_ended(process, seconds):
    """Waits for the end of a child for at most this number of seconds, and returns whether it came."""
    handle = os.pidfd_open(process)
    try:
        return bool(select.select([handle], [], [], seconds)[0])
    finally:
        os.close(handle)


def write_all(file, data):
    rest = memoryview(data)
    while rest:
        rest = rest[os.write(file, rest) :]


def read_all(file):
    return os.pread(file, os.fstat(file).st_size, 0)


def examples():
    """Gives the name, the script's bytes and the report's bytes of each example."""
    for name in sorted(os.listdir(f"{TOP}/examples")):
        if name.endswith(".anim"):
            with open(f"{TOP}/examples/{name}", "rb") as script:
                with open(f"{TOP}/examples/{name[:-5]}.report", "rb") as report:
                    yield name, script.read(), report.read()


def example(name):
    """Gives the script and the report of one example."""
    return next((script, report) for it, script, report in examples() if it == f"{name}.anim")


def text_of(lines):
    return "".join(f"{line}\n" for line in lines).encode()


def with_word(script, word):
    """Gives a script with another word in its word line."""
    lines = [b"word " + word if line.startswith(b"word ") else line for line in script.split(b"\n")]
    return b"\n".join(lines)


def word_of(report):
    """Gives the word of a report, or None where its second line is no word line."""
    lines = report.split(b"\n", 2)
    return lines[1][5:] if len(lines) == 3 and lines[1].startswith(b"word ") else None


def refusal(line, cause):
    return f"refused: line {line}: {cause}\n".encode()


def built_library(source, folder):
    """Builds a library from this source in C, to stand between the program and the C library, and gives its path."""
    with open(f"{folder}/between.c", "w", encoding="utf-8") as file:
        file.write(source)
    library = f"{folder}/between.so"
    subprocess.run(["gcc", "-O1", "-shared", "-fPIC", "-o", library, f"{folder}/between.c"], check=True)
    return library


def program_at(path):
    """Gives the program's path, or ends where there is none: crates/cctick/out/cctick where no path is given."""
    program = os.path.abspath(path) if path else f"{TOP}/crates/cctick/out/cctick"
    if not os.access(program, os.X_OK):
        print(f"there is no program {program}: run .ci/run or ./cctick first", file=sys.stderr)
        sys.exit(2)
    return program
