"""What judge and explain do with the words and the input that they are given."""
import os
import pty
import shutil
import threading

from trial import ROOT, Told, as_other_user, end, other_user_reads, run, start

GOOD = ROOT / "examples" / "sample.bundle"
BAD = ROOT / "examples" / "broken-field.bundle"
FOLDER = ROOT / "examples"
EMPTY = {"judge": "OK 0\n", "explain": "OK 0\nThe bundle is empty: it has no record.\n"}


def due(command, path):
    """The answer on a bundle of examples/, by its stored words, of which the first line is the verdict."""
    words = path.with_suffix(".txt").read_text()
    return words if command == "explain" else words.split("\n")[0] + "\n"


def named(command, name, answer):
    return f"{name}:\n{answer}" if command == "explain" else f"{name}: {answer}"


def unread(command, name, why):
    return f"{command}: cannot read {name}: {why}\n"


def other_user_runs():
    return other_user_reads(ROOT / "judge", ROOT / "target" / "bin" / "verdict", shutil.which("rt"))


class Reading:
    def __init__(self, command, folder, tally):
        self.command, self.folder, self.tally = command, folder, tally
        self.program = ROOT / command
        self.good, self.bad = due(command, GOOD), due(command, BAD)

    def hold(self, name, told, wrote, said, status):
        self.tally.hold(f"{self.command} {name}", told, Told(wrote, said, status))

    def run(self, *words, **more):
        return run([self.program, *words], **more)

    def all(self):
        for part in (
            self.files,
            self.standard_input,
            self.unreadable,
            self.several,
            self.options,
            self.names,
            self.odd_files,
            self.failing_reads,
            self.closed_streams,
            self.limit,
        ):
            part()

    def files(self):
        self.hold("good file", self.run(GOOD), self.good, "", 0)
        self.hold("bad file", self.run(BAD), self.bad, "", 1)
        self.hold("from another folder", self.run("sample.bundle", cwd=FOLDER), self.good, "", 0)
        link = self.folder / f"link-{self.command}"
        link.symlink_to(self.program)
        self.hold("by a link", run([link, GOOD]), self.good, "", 0)

    def standard_input(self):
        with open(BAD, "rb") as file:
            self.hold("redirect", self.run(stdin=file), self.bad, "", 1)
        self.hold("pipe", self.run(data=BAD.read_bytes()), self.bad, "", 1)
        self.hold("dash", self.run("-", data=GOOD.read_bytes()), self.good, "", 0)
        self.hold("dash behind --", self.run("--", "-", data=BAD.read_bytes()), self.bad, "", 1)
        self.hold("file beside a pipe", self.run(BAD, data=GOOD.read_bytes()), self.bad, "", 1)
        told = self.run("-", "-", data=BAD.read_bytes())
        self.refused("dash twice", told, "standard input can be read only once")

    def refused(self, name, told, reason):
        """A usage error has its reason on the first line, then the usage, and no answer."""
        first, _, rest = told.said.partition("\n")
        is_so = (told.wrote, told.status, first) == ("", 2, f"{self.command}: {reason}") and rest.startswith(f"usage: {self.command} ")
        self.tally.holds(f"{self.command} {name}", is_so, told)

    def unreadable(self):
        missing = self.folder / "missing"
        self.hold("folder", self.run(FOLDER), "", unread(self.command, FOLDER, "Is a directory"), 2)
        self.hold("missing file", self.run(missing), "", unread(self.command, missing, "No such file or directory"), 2)
        self.hold("empty name", self.run(""), "", unread(self.command, "''", "No such file or directory"), 2)
        folder = os.open(FOLDER, os.O_RDONLY)
        self.hold("folder as input", self.run(stdin=folder), "", unread(self.command, "standard input", "Is a directory"), 2)
        os.close(folder)
        self.forbidden()

    def forbidden(self):
        path = self.folder / f"forbidden-{self.command}"
        path.write_bytes(GOOD.read_bytes())
        path.chmod(0)
        words = [self.program, path]
        if os.getuid() == 0:
            words = as_other_user(words) if other_user_runs() else None
        if words is None:
            self.tally.skip("a file that may not be read", "there is no other user to try it as")
            return
        self.hold("forbidden file", run(words), "", unread(self.command, path, "Permission denied"), 2)

    def several(self):
        good, bad = named(self.command, GOOD, self.good), named(self.command, BAD, self.bad)
        lost = unread(self.command, FOLDER, "Is a directory")
        self.hold("two good files", self.run(GOOD, GOOD), good + good, "", 0)
        self.hold("good and bad", self.run(GOOD, BAD), good + bad, "", 1)
        self.hold("bad and good", self.run(BAD, GOOD), bad + good, "", 1)
        self.hold("all kinds", self.run(GOOD, FOLDER, BAD, GOOD), good + bad + good, lost, 2)
        self.hold("folder last", self.run(BAD, FOLDER), bad, lost, 2)
        piped = named(self.command, "standard input", self.bad)
        self.hold("file and pipe", self.run(GOOD, "-", data=BAD.read_bytes()), good + piped, "", 1)

    def options(self):
        told = self.run("--help")
        is_so = (told.status, told.said) == (0, "") and told.wrote.startswith(f"usage: {self.command} ")
        self.tally.holds(f"{self.command} --help", is_so, told)
        self.refused("unknown option", self.run("-x"), "there is no option -x")
        self.refused("option behind a file", self.run(GOOD, "--all"), "there is no option --all")
        ours, theirs = pty.openpty()
        self.refused("terminal", self.run(stdin=theirs), "no file is named, and standard input is a terminal")
        self.hold("file at a terminal", self.run(GOOD, stdin=theirs), self.good, "", 0)
        os.close(ours)
        os.close(theirs)

    def names(self):
        for name, shown in (("two words  and more", None), ("-x", None), ("--", None), ("*", None), ("line\nOK 7", "$'line\\nOK 7'")):
            (self.folder / name).write_bytes(BAD.read_bytes())
            told = self.run("--", name, name, cwd=self.folder)
            self.hold(f"name {name!r}", told, 2 * named(self.command, shown or name, self.bad), "", 1)
        self.hold("name -x by its folder", self.run("./-x", cwd=self.folder), self.bad, "", 1)
        told = self.run("no\nfile", cwd=self.folder)
        self.hold("missing name of two lines", told, "", unread(self.command, "$'no\\nfile'", "No such file or directory"), 2)

    def odd_files(self):
        self.hold("/dev/null", self.run("/dev/null"), EMPTY[self.command], "", 0)
        self.hold("input from /dev/null", self.run(), EMPTY[self.command], "", 0)
        fifo = self.folder / f"fifo-{self.command}"
        os.mkfifo(fifo)
        writer = threading.Thread(target=lambda: fifo.write_bytes(BAD.read_bytes()))
        writer.start()
        self.hold("fifo", self.run(fifo), self.bad, "", 1)
        writer.join()
        gone = self.folder / "gone.bundle"
        gone.write_bytes(BAD.read_bytes())
        with open(gone, "rb") as file:
            gone.unlink()
            self.hold("deleted file as input", self.run(stdin=file), self.bad, "", 1)
        self.hold("deleted file", self.run(gone), "", unread(self.command, gone, "No such file or directory"), 2)

    def failing_reads(self):
        """A terminal hands on what was written to its other end and then, that end being closed, fails each read."""
        ours, theirs = pty.openpty()
        os.write(theirs, GOOD.read_bytes()[:157])
        os.close(theirs)
        told = self.run("-", stdin=ours)
        self.hold("read that fails halfway", told, "", unread(self.command, "standard input", "Input/output error"), 2)
        os.close(ours)

    def closed_streams(self):
        def closed(streams, *words):
            return run(["sh", "-c", f'exec "$@" {streams}', "sh", self.program, *words])

        lost = unread(self.command, "standard input", "it is closed")
        self.hold("closed input", closed("<&-"), "", lost, 2)
        self.hold("closed input by a dash", closed("<&-", "-"), "", lost, 2)
        told = closed("<&-", "/dev/stdin")
        self.tally.holds(f"{self.command} closed input by its path", (told.wrote, told.status) == ("", 2), told)
        self.hold("file and closed input", closed("<&-", BAD), self.bad, "", 1)
        self.hold("closed output", closed(">&-", GOOD), "", f"{self.command}: standard output is closed\n", 2)
        self.hold("closed error output", closed("2>&-", GOOD), self.good, "", 0)
        self.hold("closed error output and a folder", closed("2>&-", FOLDER), "", "", 2)
        self.hold("all closed", closed("<&- >&- 2>&-"), "", "", 2)
        with open("/dev/full", "wb") as full:
            told = end(start([self.program, GOOD], stdout=full))
        self.hold("full output", told, "", f"{self.command}: cannot write to standard output\n", 2)

    def limit(self):
        """Input that never ends is too long by a byte more than the limit."""
        told = self.run("/dev/zero")
        is_so = (told.wrote.split("\n")[0], told.said, told.status) == ("NO 1 0 0", "", 1)
        self.tally.holds(f"{self.command} endless input", is_so, told)


def side_by_side(tally):
    """Programs that are built already run at the same time."""
    runs = [start([ROOT / command, path]) for command in ("judge", "explain") for path in (GOOD, BAD)]
    dues = [due(command, path) for command in ("judge", "explain") for path in (GOOD, BAD)]
    for i, (process, wrote) in enumerate(zip(runs, dues)):
        tally.hold(f"side by side {i}", end(process), Told(wrote, "", i % 2))


def other_user(tally):
    """Whoever may read the checkout may run what is built there."""
    if not other_user_runs():
        tally.skip("another user", "there is none here, or it cannot reach this folder")
        return
    tally.hold("another user", run(as_other_user([ROOT / "judge", GOOD])), Told(due("judge", GOOD), "", 0))


def check(folder, tally):
    for command in ("judge", "explain"):
        Reading(command, folder, tally).all()
    side_by_side(tally)
    other_user(tally)
