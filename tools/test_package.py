#!/usr/bin/env python3
"""Tests `tools/package`: the package is made, put into a fresh root by dpkg, tried there and taken away again; and the manual pages.

usage: tools/test_package.py [FOLDER]

FOLDER has the programs tardis and tardisd. Without it they are those that the last build left, and where it left none, stand-ins
that say their version alone: then what runs a server is skipped. Nothing is left behind, and nothing of this machine's own
packages is touched.
"""

import gzip
import os
import pathlib
import re
import shutil
import subprocess
import sys
import tempfile
import unittest

from servers import PATIENCE, first_line, stop

TOP = pathlib.Path(__file__).resolve().parent.parent
PROGRAMS = ("tardis", "tardisd")
PAGES = ("kumovasil", "tardis", "tardisd")
BUILT = {name: TOP / "crates" / name / "out" / name for name in PROGRAMS}
FOLDER = None
STAND_IN = """#!/bin/sh
[ "$1" = --version ] && echo "{name} {version}"
"""


def run(*words, **options):
    return subprocess.run([str(word) for word in words], capture_output=True, timeout=3 * PATIENCE, **options)


def page_of(name):
    return (TOP / "docs" / "man" / (name + ".1")).read_text(encoding="utf-8")


def options_in(page):
    """The long options that a manual page names."""
    return set(re.findall(r"(?:\bFl |\| )(-[a-z][a-z-]*)", page))


def help_of(crate):
    """What a program tells of its words, as its source has it."""
    source = (TOP / "crates" / crate / "src" / "helps.rt").read_text(encoding="utf-8")
    return re.search(r'USAGE: &str = "(.*?)";', source, re.DOTALL).group(1)


class WithFolder(unittest.TestCase):
    def setUp(self):
        self.folder = pathlib.Path(tempfile.mkdtemp())
        self.addCleanup(shutil.rmtree, self.folder)

    def stand_ins(self, **versions):
        """A folder with programs that say these versions, 0.1.0 where none is named."""
        folder = pathlib.Path(tempfile.mkdtemp(dir=self.folder))
        for name in PROGRAMS:
            (folder / name).write_text(STAND_IN.format(name=name, version=versions.get(name, "0.1.0")))
            (folder / name).chmod(0o755)
        return folder


@unittest.skipUnless(shutil.which("dpkg-deb"), "there is no dpkg-deb")
class ThePackage(WithFolder):
    def setUp(self):
        super().setUp()
        folder = FOLDER or self.folder / "built"
        if not FOLDER:
            folder.mkdir()
            for name, path in BUILT.items():
                if path.exists():
                    shutil.copy(path, folder / name)
        self.is_real = all((folder / name).exists() and (folder / name).read_bytes()[:4] == b"\x7fELF" for name in PROGRAMS)
        self.programs = folder if self.is_real else self.stand_ins()

    def package(self, *words, out=None):
        """Makes the package, and gives its path."""
        out = out or self.folder
        done = run(TOP / "tools" / "package", "--from", self.programs, "--out", out, *words)
        self.assertEqual((done.returncode, done.stderr), (0, b""))
        path = pathlib.Path(done.stdout.decode().strip())
        self.assertEqual(path, out / "kumovasil_0.1.0_amd64.deb")
        return path

    def dpkg(self, root, *words):
        """Asks dpkg of that root, whose scripts run without a chroot, as root or not."""
        admin = root / "var" / "lib" / "dpkg"
        (admin / "info").mkdir(parents=True, exist_ok=True)
        (admin / "updates").mkdir(exist_ok=True)
        (admin / "status").touch()
        done = run("dpkg", "--root=%s" % root, "--force-not-root", "--force-script-chrootless", "--force-depends", "--log=/dev/null", *words)
        self.assertEqual(done.returncode, 0, done.stderr)
        return done.stdout.decode()

    def test_it_is_put_into_a_fresh_root_tried_and_taken_away(self):
        path, root = self.package(), self.folder / "root"
        root.mkdir()
        self.dpkg(root, "--install", path)
        self.assertEqual(self.dpkg(root, "--verify", "kumovasil"), "")
        for name in PROGRAMS:
            self.assertEqual(run(root / "usr" / "bin" / name, "--version").stdout.decode(), "%s 0.1.0\n" % name)
        self.assertEqual((root / "usr/bin/tardis").read_bytes(), (self.programs / "tardis").read_bytes())
        self.assertEqual((root / "usr/lib/kumovasil/tardisd").read_bytes(), (self.programs / "tardisd").read_bytes())
        self.assertIn(b"draws the history", run(root / "usr/bin/kumovasil", "--help", cwd=self.folder).stdout)
        imported = run(sys.executable, "-c", "import tardis; print(tardis.__file__)", cwd=self.folder, env={"PYTHONPATH": str(root / "usr/lib/kumovasil")})
        self.assertEqual(imported.stdout.decode().strip(), str(root / "usr/lib/kumovasil/tardis/__init__.py"))
        for name in PAGES:
            self.assertEqual(gzip.decompress((root / "usr/share/man/man1" / (name + ".1.gz")).read_bytes()).decode(), page_of(name))
        unit = (root / "usr/lib/systemd/system/tardisd@.service").read_text()
        self.assertIn("ExecStart=/usr/bin/tardisd $OPTIONS", unit)
        self.assertEqual((root / "usr/share/doc/kumovasil/OPERATING.md").read_bytes(), (TOP / "docs/OPERATING.md").read_bytes())
        self.assertTrue((root / "etc/tardis").is_dir())
        self.serve(root)
        for cache in (root / "usr").rglob("__pycache__"):
            shutil.rmtree(cache)
        self.dpkg(root, "--purge", "kumovasil")
        left = [str(it.relative_to(root)) for it in root.rglob("*") if it.is_file() and "var" not in it.relative_to(root).parts]
        self.assertEqual(left, [])

    def serve(self, root):
        """Over the programs of a build: the server answers the client, both as they were installed."""
        if not self.is_real:
            return
        address = "unix:%s" % (self.folder / "site")
        server = subprocess.Popen([root / "usr/bin/tardisd", "--listen", address, "--memory", "256"], stderr=subprocess.PIPE)
        self.addCleanup(stop, server)
        self.assertIn("listens at", first_line(server))
        self.assertEqual(run(root / "usr/bin/kumovasil", "put", address, "x", "1").stdout, b"committed 1.1 below 0.0\n")
        self.assertEqual(run(root / "usr/bin/kumovasil", "get", address, "x").stdout, b"1\n")

    def test_it_says_what_it_is_and_needs(self):
        told = run("dpkg-deb", "--field", self.package()).stdout.decode()
        for line in "Package: kumovasil", "Version: 0.1.0", "Architecture: amd64":
            self.assertIn(line + "\n", told)
        needs = re.search(r"^Depends: (.*)$", told, re.MULTILINE).group(1)
        self.assertIn("python3 (>= 3.8)", needs)
        self.assertEqual("libc6 (>= 2." in needs, b"GLIBC_2." in (self.programs / "tardisd").read_bytes())

    def test_all_is_roots_and_nobody_else_may_write(self):
        for line in run("dpkg-deb", "--contents", self.package()).stdout.decode().splitlines():
            mode, owner = line.split()[:2]
            self.assertEqual((owner, mode[5], mode[8]), ("root/root", "-", "-"), line)

    def test_the_same_files_make_the_same_package(self):
        first, second = self.folder / "first", self.folder / "second"
        first.mkdir(), second.mkdir()
        self.assertEqual(self.package(out=first).read_bytes(), self.package(out=second).read_bytes())

    def is_refused(self, folder, text):
        done = run(TOP / "tools" / "package", "--from", folder, "--out", self.folder)
        self.assertEqual((done.returncode, done.stdout), (1, b""))
        self.assertIn(text, done.stderr.decode())
        self.assertEqual(list(self.folder.glob("*.deb")), [])

    def test_no_package_is_made_where_a_program_is_missing_or_another_one(self):
        folder = self.stand_ins()
        (folder / "tardisd").unlink()
        self.is_refused(folder, "tardisd isn't there")
        shutil.copy(folder / "tardis", folder / "tardisd")
        self.is_refused(folder, "tardisd isn't tardisd: asked for its version it says 'tardis 0.1.0\\n'")
        self.is_refused(self.stand_ins(tardisd="0.2.0"), "of different versions")


class ThePages(unittest.TestCase):
    def test_they_parse(self):
        tools = [tool for tool in (["mandoc", "-T", "lint", "-W", "warning"], ["man", "--warnings", "-E", "UTF-8", "-l", "-Tutf8"]) if shutil.which(tool[0])]
        if not tools:
            self.skipTest("neither mandoc nor man is installed")
        for name in PAGES:
            for tool in tools:
                done = run(*tool, TOP / "docs" / "man" / (name + ".1"), env={**os.environ, "LC_ALL": "C.UTF-8", "MANPAGER": "cat"})
                told = done.stderr if tool[0] == "man" else done.stdout + done.stderr
                self.assertEqual((done.returncode, told), (0, b""), name)

    def test_each_option_and_command_of_a_help_has_its_place(self):
        for name in PROGRAMS:
            text = help_of(name + "_main")
            self.assertEqual(set(re.findall(r"(?<![\w-])-(-[a-z][a-z-]*)", text)) - options_in(page_of(name)), set(), name)
        for command in set(re.findall(r"^(?:usage:)? +tardis ([a-z]+)\b", help_of("tardis_main"), re.MULTILINE)):
            self.assertRegex(page_of("tardis"), r"\.It Cm %s\n" % command)
        self.assertIn("-memory", options_in(page_of("tardisd")))

    def test_each_command_of_the_client_has_its_place(self):
        environment = {**os.environ, "PYTHONPATH": str(TOP / "clients" / "python"), "PYTHONDONTWRITEBYTECODE": "1"}
        told = run(sys.executable, "-m", "tardis", "--help", env=environment).stdout.decode()
        commands = re.findall(r"^    ([a-z]+) ", told, re.MULTILINE)
        self.assertGreater(len(commands), 10)
        page = page_of("kumovasil")
        for command in commands:
            self.assertRegex(page, r"(It|,) Cm %s " % command)
            help = run(sys.executable, "-m", "tardis", command, "--help", env=environment).stdout.decode()
            options = set(re.findall(r"(?<![\w-])-(-[a-z][a-z-]*)", help))
            self.assertEqual(options - {"-help"} - options_in(page), set(), command)


if __name__ == "__main__":
    if len(sys.argv) > 1 and not sys.argv[1].startswith("-"):
        FOLDER = pathlib.Path(sys.argv.pop(1)).resolve()
    unittest.main()
