"""Runs the commands judge and explain, and counts what they told beside what was due."""
import os
import pathlib
import shutil
import signal
import subprocess

ROOT = pathlib.Path(__file__).resolve().parent.parent
PATIENCE = 60
NOBODY = ["setpriv", "--reuid=65534", "--regid=65534", "--clear-groups"]


class Told:
    """What a command wrote and said, and its status."""

    def __init__(self, wrote, said, status):
        self.wrote, self.said, self.status = wrote, said, status

    def __eq__(self, other):
        return (self.wrote, self.said, self.status) == (other.wrote, other.said, other.status)

    def __repr__(self):
        return f"status {self.status}, wrote {self.wrote!r}, said {self.said!r}"


def heed_interrupts():
    """A command that was started in the background may ignore them, and so would all that it starts."""
    signal.signal(signal.SIGINT, signal.SIG_DFL)


def start(words, stdin=subprocess.DEVNULL, stdout=subprocess.PIPE, stderr=subprocess.PIPE, **more):
    """Starts a command in a group of its own, which can be ended as a whole."""
    words = [str(word) for word in words]
    files = {"stdin": stdin, "stdout": stdout, "stderr": stderr}
    return subprocess.Popen(words, **files, start_new_session=True, preexec_fn=heed_interrupts, **more)


def end(process, data=None):
    try:
        wrote, said = process.communicate(data, timeout=PATIENCE)
    except subprocess.TimeoutExpired:
        os.killpg(process.pid, signal.SIGKILL)
        process.communicate()
        return Told("", f"(no end in {PATIENCE} s)", None)
    return Told((wrote or b"").decode(), (said or b"").decode(), process.returncode)


def run(words, data=None, **more):
    if data is not None:
        more["stdin"] = subprocess.PIPE
    return end(start(words, **more), data)


def as_other_user(words):
    """The words that run a command as a user who may not write here, or None where that cannot be had."""
    if os.getuid() != 0:
        return None
    if not shutil.which("setpriv"):
        return None
    return NOBODY + [str(word) for word in words]


def other_user_reads(*paths):
    tries = [as_other_user(["test", "-r", path]) for path in paths]
    return None not in tries and all(run(words).status == 0 for words in tries)


class Tally:
    def __init__(self):
        self.passed = 0
        self.failed = 0
        self.skipped = 0

    def hold(self, name, told, due):
        self.holds(name, told == due, f"{told}; due: {due}")

    def holds(self, name, is_so, told):
        if is_so:
            self.passed += 1
            return
        self.failed += 1
        print(f"FAILED {name}: {told}")

    def skip(self, name, why):
        self.skipped += 1
        print(f"skipped {name}: {why}")
