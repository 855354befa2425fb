#!/usr/bin/env python3
"""Tests `tools/build.py` over a repository of six small crates and stand-ins for the toolchain's commands, in seconds.

usage: tools/test_build.py

The stand-in for `rattle` notes when it begins and ends with a crate, refuses to where the statements of a library below
aren't there or are others than those that the crates between were made over, and takes its time; it fails, or is killed, where
a file beside it says so. Everything lies in a folder that is removed.
"""

import os
import shutil
import signal
import stat
import subprocess
import sys
import tempfile
import time
import unittest

HERE = os.path.dirname(os.path.abspath(__file__))
CRATES = {"base": "", "left": "base", "right": "base hex", "far": "base", "top": "left right", "prog": "top far"}

COMMON = r'''#!/usr/bin/env python3
import os, signal, sys, time
home = os.environ["STAND_IN_HOME"]
def note(*what):
    with open(home + "/notes", "a") as file:
        file.write(" ".join(what) + "\n")
has = lambda it: os.path.exists(home + "/" + it)
words = sys.argv[1:]
'''

RT = COMMON + r'''
if words == ["doc"]:
    print(home + "/kit/START-HERE.md")
elif words == ["version"]:
    print("kit", open(home + "/kit/version").read())
elif words[0] == "try":
    note("try", os.path.basename(os.getcwd()), *words[1:])
    sys.stdout.write(sys.stdin.read())
    print("interpreter: no-answer: nothing", file=sys.stderr)
    print("run=ended", file=sys.stderr)
    sys.exit(4)
else:
    name = os.path.basename(os.getcwd())
    note(words[0], name)
    os.makedirs("out", exist_ok=True)
    open("out/" + name, "w").write("#!/bin/sh\necho ran \"$@\"\nexit 3\n")
    os.chmod("out/" + name, 0o755)
'''

RATTLE = COMMON + r'''
if words == ["build", "--help"]:
    print("" if has("old") else "--statements")
    sys.exit(0)
name, target = words[words.index("--crate-name") + 1], words[words.index("-o") + 1]
externs = dict(words[at + 1].split("=") for at, it in enumerate(words) if it == "--extern")
folders = [words[at + 1].partition("=")[2] for at, it in enumerate(words) if it == "-L"]
made = {}
for it, rlib in externs.items():
    if rlib.startswith(home + "/kit/"):
        assert os.path.isdir(os.path.dirname(rlib)), rlib
        continue
    made[it] = open(rlib + "/mark").read()
    # (what it was made over must be what is there)
    for line in open(rlib + "/over").read().splitlines():
        below, mark = line.split()
        found = [at for at in folders if os.path.isdir(at + "/" + below + ".rlib")]
        assert found and open(found[0] + "/" + below + ".rlib/mark").read() == mark, below + " is another one"
note("build", name, "jobs", words[words.index("--jobs") + 1])
time.sleep(0.4 if not has("slow-" + name) else 30)
if has("fails-" + name):
    print("a goal is open in", name)
    sys.exit(1)
if has("killed-" + name):
    os.remove(home + "/killed-" + name)
    os.kill(os.getpid(), signal.SIGKILL)
if "--statements" in words:
    os.makedirs(target)
    open(target + "/mark", "w").write(str(time.time_ns()))
    open(target + "/over", "w").write("".join("%s %s\n" % it for it in made.items()))
else:
    open(target, "w").write("#!/bin/sh\necho ran \"$@\"\nexit 3\n")
note("end", name)
'''

LINK = COMMON + r'''
target, made = words[words.index("-o") + 1 :][:2]
os.rename(made, target)
os.chmod(target, 0o755)
'''


class Builds(unittest.TestCase):
    def setUp(self):
        self.home = tempfile.mkdtemp(prefix="test-build-")
        self.addCleanup(shutil.rmtree, self.home)
        self.top = os.path.join(self.home, "repository")
        for name in CRATES:
            for part in ("src", "specs"):
                os.makedirs(os.path.join(self.top, "crates", name, part))
            root = "main" if name == "prog" else "lib"
            self.write(f"repository/crates/{name}/src/{root}.rt", name)
        os.makedirs(os.path.join(self.top, "tools"))
        shutil.copy2(os.path.join(HERE, "build.py"), os.path.join(self.top, "tools"))
        self.write("repository/crates.txt", "# all\n" + "".join(f"{name}: {deps}\n" for name, deps in CRATES.items()))
        for folder in ("bin", "kit/bin", "kit/rlibs"):
            os.makedirs(os.path.join(self.home, folder))
        self.write("kit/version", "one")
        for path, text in (("bin/rt", RT), ("kit/bin/rattle", RATTLE), ("kit/bin/rattle-link", LINK)):
            self.write(path, text)
            os.chmod(os.path.join(self.home, path), stat.S_IRWXU)
        past = time.time() - 100
        for at, _, files in os.walk(os.path.join(self.top)):
            for it in files:
                os.utime(os.path.join(at, it), (past, past))

    def write(self, path, text):
        with open(os.path.join(self.home, path), "w", encoding="utf-8") as file:
            file.write(text)

    def touch(self, name, text):
        """Changes the text of a crate."""
        time.sleep(0.05)
        self.write(f"repository/crates/{name}/src/{'main' if name == 'prog' else 'lib'}.rt", text)

    def started(self, *words):
        call = [sys.executable, os.path.join(self.top, "tools", "build.py"), "prog", *words]
        path = os.path.join(self.home, "bin") + os.pathsep + os.environ["PATH"]
        pipes = dict.fromkeys(("stdin", "stdout", "stderr"), subprocess.PIPE)
        env = {**os.environ, "PATH": path, "STAND_IN_HOME": self.home}
        return subprocess.Popen(call, env=env, start_new_session=True, text=True, **pipes)

    def ran(self, *words, given=""):
        process = self.started(*words)
        out, told = process.communicate(given, timeout=60)
        return process.returncode, out, told

    def notes(self):
        """What the stand-ins noted since the last time."""
        path = os.path.join(self.home, "notes")
        if not os.path.exists(path):
            return []
        with open(path, encoding="utf-8") as file:
            lines = [it.split() for it in file.read().splitlines()]
        os.remove(path)
        return lines

    def asked(self, verb="build"):
        return [it[1] for it in self.notes() if it[0] == verb]

    def wait_for(self, name):
        """Waits until the crate's proof began."""
        path = os.path.join(self.home, "notes")
        for _ in range(300):
            if os.path.exists(path):
                with open(path, encoding="utf-8") as file:
                    if f"build {name} " in file.read():
                        return
            time.sleep(0.05)
        self.fail(f"{name} didn't begin")

    def test_crates_are_proved_side_by_side_each_behind_those_below(self):
        status, out, told = self.ran("a", "b c")
        self.assertEqual((status, out), (3, "ran a b c\n"), told)
        noted = [it[:2] for it in self.notes()]
        place = {(what, name): noted.index([what, name]) for what, name in map(tuple, noted)}
        for name, deps in CRATES.items():
            for it in deps.replace("hex", "").split():
                self.assertLess(place["end", it], place["build", name])
        if len(os.sched_getaffinity(0)) > 1:
            self.assertLess(place["build", "right"], place["end", "left"] if place["build", "left"] < place["build", "right"] else len(noted))
        self.assertIn("[1 of 6] base, about a minute more", told)
        self.assertRegex(told, r"\[[45] of 6\] top")

    def test_what_took_longest_begins_first_and_gets_the_idle_processors(self):
        # (each has four bytes of code or so; far holds up nobody, and is the longest for all that)
        self.write("repository/tools/seconds.txt", "# seconds, bytes\nbase 90 4\nfar 300 3\nleft 20 4\nright 200 5\ntop 10 3\nprog 10 4\n")
        status, _, told = self.ran()
        self.assertEqual(status, 3, told)
        noted = self.notes()
        begun = [it[1] for it in noted if it[0] == "build"]
        self.assertEqual(begun[0], "base")
        if len(os.sched_getaffinity(0)) <= 8:
            # (which of the two notes first depends on the system)
            self.assertEqual(set(begun[1:3]), {"far", "right"})
        # (nothing else can be proved beside it)
        self.assertEqual(noted[0][2:], ["jobs", str(min(4, len(os.sched_getaffinity(0))))])
        # (what each took is noted, with the bytes of its code)
        with open(os.path.join(self.top, "crates/right/out/statements/seconds"), encoding="ascii") as file:
            self.assertEqual(file.read().split()[1], "5")

    def test_what_is_there_is_kept(self):
        self.ran()
        self.notes()
        status, out, told = self.ran("x")
        self.assertEqual((status, out, told), (3, "ran x\n", ""))
        self.assertEqual(self.notes(), [])
        self.touch("left", "another text")
        self.assertEqual(self.ran("x")[:2], (3, "ran x\n"))
        self.assertEqual(self.asked(), ["left", "top", "prog"])
        # (the time alone says that the program is to be made again, and no more)
        os.utime(os.path.join(self.top, "crates/left/src/lib.rt"))
        self.assertEqual(self.ran("x")[:2], (3, "ran x\n"))
        self.assertEqual(self.asked(), ["prog"])

    def test_text_that_changes_meanwhile_is_proved(self):
        process = self.started()
        self.wait_for("left")
        self.write("repository/crates/left/src/lib.rt", "another text")
        told = process.communicate(timeout=60)[1]
        self.assertEqual(process.returncode, 3, told)
        self.assertEqual(self.asked().count("left"), 2)

    def test_another_toolchain_proves_all_anew(self):
        self.ran()
        self.notes()
        self.write("kit/version", "two")
        self.touch("prog", "another text")
        self.assertEqual(self.ran()[0], 3)
        self.assertEqual(sorted(self.asked()), sorted(CRATES))

    def test_what_was_made_over_other_statements_is_made_again(self):
        self.ran()
        self.write("fails-left", "")
        self.touch("left", "another text")
        self.assertEqual(self.ran()[0], 70)
        os.remove(os.path.join(self.home, "fails-left"))
        self.notes()
        # (the text is as it was, and its statements are gone)
        self.touch("left", "left")
        status, _, told = self.ran()
        self.assertEqual(status, 3, told)
        self.assertEqual(self.asked(), ["left", "top", "prog"])

    def test_a_failure_is_told_and_what_was_done_stays(self):
        self.write("fails-right", "")
        status, out, told = self.ran()
        self.assertEqual((status, out), (70, ""))
        self.assertIn("a goal is open in right", told)
        self.assertEqual(sorted(self.asked())[0], "base")
        os.remove(os.path.join(self.home, "fails-right"))
        self.assertEqual(self.ran()[0], 3)
        self.assertNotIn("base", self.asked())

    def test_an_interrupted_build_goes_on(self):
        for number, wanted in ((signal.SIGINT, 130), (signal.SIGTERM, 143), (signal.SIGKILL, -9)):
            with self.subTest(signal=number):
                for name in CRATES:
                    shutil.rmtree(os.path.join(self.top, "crates", name, "out"), ignore_errors=True)
                self.write("slow-right", "")
                process = self.started()
                self.wait_for("right")
                (os.kill if number == signal.SIGKILL else os.killpg)(process.pid, number)
                process.communicate(timeout=30)
                self.assertEqual(process.returncode, wanted)
                os.remove(os.path.join(self.home, "slow-right"))
                self.notes()
                self.assertEqual(self.ran()[0], 3)
                again = self.asked()
                self.assertIn("right", again)
                self.assertNotIn("base", again)

    def test_a_check_that_was_killed_is_tried_alone(self):
        self.write("killed-right", "")
        self.assertEqual(self.ran()[0], 3)
        noted = self.notes()
        self.assertEqual([it[:2] for it in noted].count(["build", "right"]), 2)
        last = max(place for place, it in enumerate(noted) if it[:2] == ["build", "right"])
        self.assertEqual(noted[last + 1][:2], ["end", "right"])
        self.assertEqual(noted[last][2:], ["jobs", "1"])

    def test_two_builds_at_once_make_the_program_once(self):
        first, second = self.started("a"), self.started("b")
        for process, wanted in ((first, "ran a\n"), (second, "ran b\n")):
            out, told = process.communicate(timeout=60)
            self.assertEqual((process.returncode, out), (3, wanted), told)
        self.assertEqual(sorted(self.asked()), sorted(CRATES))

    def test_a_toolchain_without_statements_has_rt_do_all(self):
        self.write("old", "")
        self.assertEqual(self.ran("x")[:2], (3, "ran x\n"))
        self.assertEqual([it[:2] for it in self.notes()], [["run", "prog"]])

    def test_an_unproved_run_says_so_and_builds_nothing(self):
        status, out, told = self.ran("--unproved", "durable", "--file", "j", "--listen", "unix:s", given="a line\n")
        self.assertEqual((status, out), (4, "a line\n"))
        self.assertIn("NOTHING OF THIS RUN IS PROVED", told.splitlines()[0])
        self.assertNotIn("interpreter", told)
        here = os.getcwd()
        self.assertEqual(self.notes()[0][-5:], ["durable", "--file", f"{here}/j", "--listen", f"unix:{here}/s"])


if __name__ == "__main__":
    unittest.main()
