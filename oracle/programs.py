"""The built programs and the archives, run on given bytes."""

import subprocess
import sys
import tempfile
from array import array
from pathlib import Path

from book_calls import Write
from records import WORD_BYTES

HERE = Path(__file__).resolve().parent
ROOT = HERE.parent
REPLAY = ROOT / "target/bin/replay"
SHADELIST = ROOT / "target/bin/shadelist"
HOST = ROOT / "target/staticlib/libhost.a"
PROBE = ROOT / "target/staticlib/libprobe.a"
BUILT_BY = {REPLAY: "tools/build replay", SHADELIST: "tools/build shadelist",
            HOST: "tools/build host", PROBE: "tools/build probe"}
RESULT_BYTES = 8


class Failed(Exception):
    """A program that stopped badly."""


def not_built():
    return [f"{path.relative_to(ROOT)} is not built: {how}"
            for path, how in BUILT_BY.items() if not path.is_file()]


def run(command, data):
    name = Path(command[0]).name
    try:
        done = subprocess.run(command, input=data, capture_output=True, timeout=600)
    except subprocess.TimeoutExpired:
        raise Failed(f"{name} did not end") from None
    if done.returncode != 0:
        raise Failed(f"{name} ended with {done.returncode}: {done.stderr[-300:]!r}")
    return done.stdout


def drive(name, archive, data):
    """Compiles a driver with an archive and runs it, all cases in one process."""
    with tempfile.TemporaryDirectory() as folder:
        driver, source, headers = Path(folder) / name, HERE / f"{name}.c", ROOT / "include"
        made = subprocess.run(["gcc", "-Wall", "-o", driver, source, "-I", headers, archive],
                              capture_output=True)
        if made.returncode != 0:
            raise Failed(f"{name} did not compile: {made.stderr.decode()}")
        return run([driver], data)


class Built:
    """The programs of the repository."""

    def replay(self, script):
        return run([REPLAY], script)

    def shadelist(self, data):
        return run([SHADELIST], data)

    def host(self, cases):
        """Result and buffer for each (light, spectrum, out)."""
        data = b"".join(map(host_bytes, cases))
        return results(drive("host_driver", HOST, data), [len(out) for _, _, out in cases])

    def book(self, calls):
        """Result and what is left in the buffer or the places, as bytes, for each call."""
        data = b"".join(map(call_bytes, calls))
        return results(drive("book_driver", PROBE, data), [len(call.lent) for call in calls])

    def pool(self, calls):
        """Result and what is left in the places, as bytes, for each call."""
        data = b"".join(map(pool_bytes, calls))
        return results(drive("pool_driver", PROBE, data), [len(call.lent) for call in calls])

    def strike(self, calls):
        """Result and what is left in the buffer, as bytes, for each call."""
        data = b"".join(map(strike_bytes, calls))
        return results(drive("strike_driver", PROBE, data), [len(call.lent) for call in calls])

    def lists(self, runs):
        """Result and what is left in the buffer, as bytes, for each list of calls."""
        data = b"".join(map(run_bytes, runs))
        return results(drive("run_driver", PROBE, data), [len(run.lent) for run in runs])


class StandIn(Built):
    """The oracle's own code in place of the programs, to try the check itself."""

    def replay(self, script):
        return run([sys.executable, HERE / "stand_in.py", "replay"], script)

    def shadelist(self, data):
        return run([sys.executable, HERE / "stand_in.py", "shadelist"], data)

    def host(self, cases):
        from host import shade_colour
        return [shade_colour(*case) for case in cases]

    def book(self, calls):
        from book_calls import answer
        return [answer(call) for call in calls]

    def pool(self, calls):
        from pool_calls import answer
        return [answer(call) for call in calls]

    def strike(self, calls):
        from strike_calls import answer
        return [answer(call) for call in calls]

    def lists(self, runs):
        from records import answer
        return [answer(run) for run in runs]


def native(*numbers):
    return b"".join(number.to_bytes(WORD_BYTES, sys.byteorder) for number in numbers)


def words(numbers):
    return array("H", numbers).tobytes()


def host_bytes(case):
    light, spectrum, out = case
    return native(light, len(spectrum), len(out)) + spectrum + out


def call_bytes(call):
    if isinstance(call, Write):
        head = native(0, call.spacing, len(call.numbers), len(call.spectra), len(call.lent))
        return head + words(call.numbers) + words(call.spectra) + call.lent
    head = native(1, call.spacing, len(call.data), call.number, len(call.lent) // 2)
    return head + call.data + call.lent


def pool_bytes(call):
    head = native(call.spacing, call.count, len(call.readings), len(call.lent) // 2)
    return head + words(call.readings) + call.lent


def strike_bytes(call):
    return native(call.spacing, call.number, len(call.lent)) + call.lent


def run_bytes(run):
    *read, lent = run
    head = native(*map(len, read), len(lent) // WORD_BYTES)
    return head + b"".join(part.tobytes() for part in read) + lent


def results(answers, lengths):
    """For each case a driver's result, and as many bytes as were lent."""
    found, at = [], 0
    for length in lengths:
        left = at + RESULT_BYTES
        found.append((int.from_bytes(answers[at:left], sys.byteorder),
                      answers[left:left + length]))
        at = left + length
    if at != len(answers):
        raise Failed(f"a driver answered {len(answers)} bytes, not {at}")
    return found
