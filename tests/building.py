"""When judge and explain build their programs, and what they say of it.

A small checkout is made, with a stand-in for rt whose crates take no time to prove. What it builds is a script.
"""
import os
import pathlib
import re
import shutil
import signal
import subprocess
import time

from trial import PATIENCE, ROOT, Told, as_other_user, end, other_user_reads, run, start

# It notes each build, and that two builds went on at once. The files beside it say what else it does. As rt does, it speaks on
# standard error and ends as the program ends that it built.
RT = """\
#!/bin/bash
kit=$(cd "$(dirname "$0")/.." && pwd)
[ "$1" != doc ] || { echo "$kit/START-HERE.md"; exit; }
[ "$*" = run ] || exit 2
exec 3>&1 >&2
program=$(basename "$PWD")
echo "$program" >>"$kit/builds"
mkdir "$kit/busy" || { echo clash >>"$kit/builds"; exit 1; }
trap 'rmdir "$kit/busy"' EXIT
echo "rt: common: begins with what a check kept in /elsewhere/crates/common"
echo "rt: chose --jobs 2 for layout"
echo "library common: modules loaded=252 checked=0"
echo "crate layout: modules loaded=0 checked=1680"
echo "logic=proved functions=54 sum=dac8208d650f15bf"
echo "rt: chose --jobs 2 for $program"
echo "fn verdict::main: proved"
[ ! -f "$kit/during" ] || . "$kit/during"
mkdir -p out
[ -f "$kit/idle" ] || cp "$kit/program" "out/$program"
echo "crate $program: modules loaded=0 checked=220"
echo "logic=proved functions=7 sum=dac8208d650f15bf"
echo "rt: running out/$program; to give it other input, run that file yourself"
"out/$program" >&3
"""
LOADER = '#!/bin/sh\nshift 2\nexec "$@"\n'
EMULATOR = '#!/bin/sh\nexec "$@"\n'
PROGRAM = '#!/bin/sh\necho "OK $(wc -c)"\n'


def executable(path, text):
    path.parent.mkdir(parents=True, exist_ok=True)
    path.write_text(text)
    path.chmod(0o755)


def progress(command, program):
    return f"{command}: proved layout (N s)\n{command}: proved {program} (N s)\n"


def timeless(said):
    """What is said, whatever the seconds that a crate took."""
    return re.sub(r"(?m)( proved \w+) \(\d+ s\)$", r"\1 (N s)", said)


def first_build(command="judge", program="verdict"):
    return f"{command}: proving and building {program} first, which takes some minutes\n" + progress(command, program)


def later_build(command="judge", program="verdict"):
    return f"{command}: proving and building what changed since {program} was built\n" + progress(command, program)


class Checkout:
    def __init__(self, path):
        self.root, self.kit = path / "checkout", path / "kit"
        self.root.mkdir(parents=True)
        for part in ("judge", "explain"):
            shutil.copy2(ROOT / part, self.root)
        shutil.copytree(ROOT / "tools", self.root / "tools")
        self.source, other = (self.root / "crates" / name / "src" / "main.rt" for name in ("verdict", "explain"))
        for source in self.source, other:
            source.parent.mkdir(parents=True)
            source.write_text("fn main() {}\n")
        (self.root / "crates.txt").write_text("verdict:\nexplain:\n")
        self.input = path / "input"
        self.input.write_text("four")
        executable(self.kit / "bin" / "rt", RT)
        toolchain = self.kit / "toolchain"
        executable(toolchain / "lib" / "ld-linux-x86-64.so.2", LOADER)
        # asked for where the processor is another than that of the code
        executable(toolchain / "bin" / "qemu-x86_64", EMULATOR)
        executable(self.kit / "program", PROGRAM)
        self.program = self.root / "target" / "bin" / "verdict"
        self.env = dict(os.environ, PATH=f"{self.kit / 'bin'}:{os.environ['PATH']}")

    def words(self, command="judge"):
        return [self.root / command, self.input]

    def start(self, command="judge", **more):
        return start(self.words(command), env=self.env, **more)

    def run(self, command="judge"):
        return self.end(self.start(command))

    def end(self, process):
        told = end(process)
        return Told(told.wrote, timeless(told.said), told.status)

    def builds(self):
        noted = self.kit / "builds"
        return noted.read_text().split() if noted.exists() else []

    def during_builds(self, line):
        (self.kit / "during").write_text(line + "\n")

    def as_usual(self):
        (self.kit / "during").unlink()

    def writes(self, text):
        """Has the program built anew from another script."""
        executable(self.kit / "program", text)
        self.change()

    def age(self):
        """Makes the program some time old, and the sources older."""
        for path in [*self.root.glob("crates/**"), *self.root.glob("crates/**/*"), self.root / "crates.txt"]:
            os.utime(path, (time.time() - 100,) * 2)
        if self.program.exists():
            os.utime(self.program, (time.time() - 50,) * 2)

    def change(self):
        self.age()
        os.utime(self.source)


def no_needless_build(checkout, tally):
    ok = Told("OK 4\n", "", 0)
    tally.hold("from nothing", checkout.run(), Told("OK 4\n", first_build(), 0))
    tally.hold("built already", checkout.run(), ok)
    tally.holds("one build", checkout.builds() == ["verdict"], checkout.builds())
    checkout.change()
    tally.hold("source changed", checkout.run(), Told("OK 4\n", later_build(), 0))
    checkout.source.with_name("gone.rt").write_text("")
    checkout.run()
    checkout.age()
    tally.hold("nothing changed since", checkout.run(), ok)
    checkout.source.with_name("gone.rt").unlink()
    tally.hold("source removed", checkout.run(), Told("OK 4\n", later_build(), 0))


def unchanged_for_rt(checkout, tally):
    """A source that is newer but the same: rt leaves the program as it is, and is not asked again."""
    checkout.run()
    (checkout.kit / "idle").touch()
    checkout.change()
    checkout.run()
    tally.hold("rt finds nothing to build", checkout.run(), Told("OK 4\n", "", 0))


def change_during_build(checkout, tally):
    checkout.during_builds("sleep 0.1; touch src/main.rt; sleep 0.1")
    checkout.run()
    checkout.as_usual()
    tally.hold("source changed during the build", checkout.run(), Told("OK 4\n", later_build(), 0))


def four_at_once(checkout, tally):
    """The first builds until the others have all said that they wait."""
    checkout.during_builds('until [ -f "$kit/go" ]; do sleep 0.05; done')
    heard = [checkout.kit / f"heard-{i}" for i in range(4)]
    runs = [checkout.start(stderr=open(path, "wb")) for path in heard]
    waiting = "judge: waiting for another build in this checkout\n"
    patience = time.time() + PATIENCE / 2
    while sum(path.read_text() == waiting for path in heard) < 3 and time.time() < patience:
        time.sleep(0.05)
    (checkout.kit / "go").touch()
    told = [end(process) for process in runs]
    tally.holds("four at once", [(one.wrote, one.status) for one in told] == 4 * [("OK 4\n", 0)], told)
    said = sorted(timeless(path.read_text()) for path in heard)
    tally.holds("three of four wait", said == [first_build()] + 3 * [waiting], said)
    tally.holds("four at once build once", checkout.builds() == ["verdict"], checkout.builds())


def both_at_once(checkout, tally):
    checkout.during_builds("sleep 0.5")
    told = [end(process) for process in [checkout.start("judge"), checkout.start("explain")]]
    tally.holds("judge and explain at once", [one.status for one in told] == [0, 0], told)
    tally.holds("judge and explain build in turn", sorted(checkout.builds()) == ["explain", "verdict"], checkout.builds())


def locked_again(checkout, tally):
    locked = checkout.root / "tools" / "locked"
    told = checkout.end(start([locked, locked, *checkout.words()], env=checkout.env))
    tally.hold("build by who has the lock", told, Told("OK 4\n", first_build(), 0))
    tally.hold("status of what is run", run([locked, "sh", "-c", "exit 7"]), Told("", "", 7))


def failing_build(checkout, tally):
    checkout.during_builds("echo a reason; exit 1")
    told = checkout.run()
    is_so = (told.wrote, told.status) == ("", 2) and "\na reason\njudge: verdict was not built" in told.said
    tally.holds("build fails", is_so, told)
    checkout.as_usual()
    tally.hold("build after a failure", checkout.run(), Told("OK 4\n", first_build(), 0))


def cut_off_build(checkout, tally):
    """A program that is there in part is built anew."""
    half = "mkdir -p out; printf '#!/bin/sh\\n' >out/$program; chmod +x out/$program"
    checkout.during_builds(half + '; rmdir "$kit/busy"; kill -9 $$')
    told = checkout.run()
    tally.holds("build killed", (told.wrote, told.status) == ("", 2) and told.said.count("judge: verdict was not built") == 1, told)
    checkout.as_usual()
    told = checkout.run()
    tally.holds("build after a kill", (told.wrote, told.status) == ("OK 4\n", 0) and checkout.builds() == ["verdict"] * 2, told)


def interrupted_build(checkout, tally):
    checkout.during_builds(': >"$kit/begun"; sleep 5')
    process = checkout.start()
    while not (checkout.kit / "begun").exists() and process.poll() is None:
        time.sleep(0.02)
    os.killpg(process.pid, signal.SIGINT)
    told = checkout.end(process)
    line = "judge: interrupted; the next run builds on from here\n"
    tally.holds("build interrupted", (told.wrote, told.status) == ("", 2) and told.said.endswith(line), told)
    checkout.as_usual()
    told = checkout.run()
    is_so = (told.wrote, told.status) == ("OK 4\n", 0) and told.said.endswith(progress("judge", "verdict"))
    tally.holds("build after an interruption", is_so, told)


def without_rt(checkout, tally):
    path = checkout.kit / "tools"
    path.mkdir()
    for name in ("bash", "sh", "cat", "dirname", "find", "flock", "head", "mktemp", "readlink", "rm", "touch", "uname", "wc"):
        (path / name).symlink_to(shutil.which(name))
    due = Told("", "judge: Rattle's command rt is not in the path\n", 2)
    env = dict(os.environ, PATH=str(path))
    tally.hold("no rt, nothing built", run(checkout.words(), env=env), due)
    checkout.run()
    tally.hold("no rt, program built", run(checkout.words(), env=env), due)


def locked_up(checkout, tally):
    """A checkout in which nothing may be written, for the user or for another one."""
    words = checkout.words()
    if os.getuid() == 0:
        words = as_other_user(words) if other_user_reads(checkout.root / "judge") else None
    if words is None:
        tally.skip("a checkout that may not be written", "there is no other user to try it as")
        return
    subprocess.run(["chmod", "-R", "a-w", checkout.root], check=True)
    line = "judge: verdict is missing or older than its sources, and there is no permission to write to {} to build it\n"
    tally.hold("read-only, nothing built", run(words, env=checkout.env), Told("", line.format(checkout.root), 2))
    subprocess.run(["chmod", "-R", "u+w", checkout.root], check=True)
    checkout.run()
    subprocess.run(["chmod", "-R", "a-w", checkout.root], check=True)
    tally.hold("read-only, program built", run(words, env=checkout.env), Told("OK 4\n", "", 0))
    subprocess.run(["chmod", "-R", "u+w", checkout.root], check=True)


def failing_programs(checkout, tally):
    """What is no answer never counts as one."""
    for name, script in (
        ("ends with 3", "echo OK 1; exit 3"),
        ("is killed", "echo OK 1; kill -9 $$"),
        ("writes nothing", "true"),
        ("writes no verdict", "echo OKAY"),
        ("writes half a verdict", "printf 'OK 1'"),
        ("writes a zero byte", "printf 'OK 1\\0\\n'"),
        ("writes a line before", "echo; echo OK 1"),
    ):
        checkout.writes(f"#!/bin/sh\n{script}\n")
        checkout.run()
        told = checkout.run()
        line = f"judge: cannot judge {checkout.input}: the program verdict failed\n"
        tally.holds(f"program {name}", (told.wrote, told.status) == ("", 2) and told.said.endswith(line), told)


def long_work(checkout, tally):
    checkout.writes("#!/bin/sh\nprintf 'OK '; sleep 2.2; echo 1\n")
    told = checkout.run()
    tally.hold("long work", told, Told("OK 1\n", first_build() + "judge: still working\n", 0))


def real_program_elsewhere(folder, tally):
    """The programs as they are built here, in a copy of this checkout at a path with spaces."""
    copy = folder / "a checkout  elsewhere"
    copy.mkdir()
    for part in ("judge", "explain", "tools", "crates.txt", "examples", "target/bin"):
        (copy / part).parent.mkdir(exist_ok=True)
        subprocess.run(["cp", "-a", ROOT / part, copy / part], check=True)
    # what rt keeps beside the sources is large, and no part of a checkout
    shutil.copytree(ROOT / "crates", copy / "crates", ignore=shutil.ignore_patterns("out"))
    for command in ("judge", "explain"):
        words = (copy / "examples" / "sample.txt").read_text()
        due = words if command == "explain" else words.split("\n")[0] + "\n"
        told = run([copy / command, copy / "examples" / "sample.bundle"])
        tally.hold(f"{command} at a path with spaces", told, Told(due, "", 0))


def check(folder, tally):
    for part in (
        no_needless_build,
        unchanged_for_rt,
        change_during_build,
        four_at_once,
        both_at_once,
        locked_again,
        failing_build,
        cut_off_build,
        interrupted_build,
        without_rt,
        locked_up,
        failing_programs,
        long_work,
    ):
        place = pathlib.Path(folder) / f"{part.__name__} with spaces"
        part(Checkout(place), tally)
    real_program_elsewhere(folder, tally)
