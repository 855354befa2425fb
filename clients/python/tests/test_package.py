"""That the package installs where nothing can be downloaded, and that its types hold."""

import os
import shutil
import subprocess
import sys
import tempfile
import unittest

from servers_here import CLIENT


def run(*words, **more):
    return subprocess.run(words, stdin=subprocess.DEVNULL, stdout=subprocess.PIPE, stderr=subprocess.STDOUT, timeout=120, **more)


class Package(unittest.TestCase):
    def test_it_installs_offline_in_a_fresh_environment(self):
        folder = tempfile.mkdtemp()
        self.addCleanup(shutil.rmtree, folder)
        made = run(sys.executable, "-m", "venv", os.path.join(folder, "venv"))
        if made.returncode != 0:
            raise unittest.SkipTest("there is no venv here (Debian: python3-venv)")
        python = os.path.join(folder, "venv", "bin", "python")
        # a folder of its own, so that nothing is written beside the sources, and no index, so that nothing is downloaded
        told = run(python, "-m", "pip", "install", "--no-index", "--no-cache-dir", "--disable-pip-version-check", CLIENT, cwd=folder)
        self.assertEqual(told.returncode, 0, told.stdout.decode())
        told = run(python, "-c", "import tardis, tardis.aio; print(tardis.__file__, tardis.__version__)", cwd=folder)
        where, version = told.stdout.decode().split()
        self.assertIn(folder, where)
        self.assertEqual(run(os.path.join(folder, "venv", "bin", "kumovasil"), "--help", cwd=folder).returncode, 0)
        self.assertTrue({"py.typed", "page.html"} <= set(os.listdir(os.path.dirname(where))))
        listed = run(python, "-m", "pip", "list", "--disable-pip-version-check", cwd=folder).stdout.decode().split("\n")
        self.assertIn(["kumovasil", version], [line.split() for line in listed])

    def test_types(self):
        if shutil.which("mypy") is None:
            raise unittest.SkipTest("mypy isn't installed (Debian: mypy)")
        folder = tempfile.mkdtemp()
        self.addCleanup(shutil.rmtree, folder)
        told = run("mypy", "--strict", "--cache-dir", folder, "tardis", cwd=CLIENT)
        self.assertEqual(told.returncode, 0, told.stdout.decode())


if __name__ == "__main__":
    unittest.main()
