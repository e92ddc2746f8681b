"""The proved program, called as a user calls it, and how what it leaves differs from what the model says."""
import os
import pathlib
import subprocess
import tempfile
import threading

import board

TOP = pathlib.Path(__file__).resolve().parent.parent
LAUNCHER = TOP / "mbsim"
BUILT = TOP / "crates/mb_sim/out/mb_sim"


class Program:
    """The program of this repository, built where it has to be, or another one by its path."""

    def __init__(self, path=None):
        if path is None:
            subprocess.run([str(LAUNCHER)], capture_output=True)
        self.path = pathlib.Path(path or BUILT).resolve()

    def is_there(self):
        return self.path.is_file()

    def call(self, folder, words, given=os.devnull):
        """The outcome of a call in a folder, with every file that is new or changed."""
        return self.measured(folder, words, 600, given)[0]

    def measured(self, folder, words, most=60, given=os.devnull):
        """The same, with the seconds of processor time and the bytes of memory that the call took; it is ended after so many seconds.
        The standard input is the file `given`, by its path from the folder."""
        before = files_of(folder)
        with tempfile.TemporaryFile() as out, tempfile.TemporaryFile() as err, open(pathlib.Path(folder, given), "rb") as script:
            started = subprocess.Popen([str(self.path), *words], stdin=script, stdout=out, stderr=err, cwd=folder)
            timer = threading.Timer(most, started.kill)
            timer.start()
            _, status, used = os.wait4(started.pid, 0)
            timer.cancel()
            started.returncode = os.waitstatus_to_exitcode(status)
            texts = []
            for stream in (out, err):
                stream.seek(0)
                texts.append(stream.read().decode(errors="replace"))
        files = {name: data for name, data in files_of(folder).items() if before.get(name) != data}
        return board.Outcome(started.returncode, *texts, files), used.ru_utime + used.ru_stime, used.ru_maxrss * 1024


def files_of(folder):
    return {path.name: path.read_bytes() for path in pathlib.Path(folder).iterdir() if path.is_file()}


def difference(got, wanted):
    """What differs first, or None."""
    for what in ("status", "err", "out"):
        if getattr(got, what) != getattr(wanted, what):
            return f"{what} is {getattr(got, what)!r}, and not {getattr(wanted, what)!r}"
    for name in sorted(got.files.keys() | wanted.files.keys()):
        if got.files.get(name) != wanted.files.get(name):
            return f"file {name} differs{line_of_difference(got.files.get(name), wanted.files.get(name))}"
    return None


def line_of_difference(got, wanted):
    """The first line in which two journals differ, in words; nothing for other files."""
    try:
        pairs = zip(got.decode().splitlines() + ["its end"], wanted.decode().splitlines() + ["its end"])
        return next((f" at line {number}: {ours}, and not {theirs}" for number, (ours, theirs) in enumerate(pairs, 1) if ours != theirs), "")
    except (AttributeError, UnicodeDecodeError):
        return ""


def report(what, cases):
    """Compares each case, a name with what the program did and what was wanted, and answers the status to end with."""
    passed = failed = 0
    for name, got, wanted in cases:
        wrong = difference(got, wanted)
        passed, failed = passed + (not wrong), failed + bool(wrong)
        if wrong:
            print(f"{name}: {wrong}")
    print(f"{what}: {passed} passed, {failed} failed")
    return 1 if failed else 0
