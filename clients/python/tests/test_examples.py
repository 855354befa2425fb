"""Each example prints what it says that it prints, against fresh servers."""

import os
import subprocess
import sys
import textwrap
import unittest

from servers_here import TARDISD, TOP, is_built

EXAMPLES = os.path.join(TOP, "examples")


class Examples(unittest.TestCase):
    def test_each_example(self):
        if not is_built(TARDISD):
            raise unittest.SkipTest("tardisd isn't built")
        names = sorted(name for name in os.listdir(EXAMPLES) if name.endswith(".py") and name != "run.py")
        self.assertEqual(names, ["cart.py", "counters.py", "device.py", "document.py", "offices.py"])
        for name in names:
            with self.subTest(name):
                with open(os.path.join(EXAMPLES, name), encoding="utf-8") as file:
                    text = file.read()
                self.assertLessEqual(text.count("\n"), 150)
                says = textwrap.dedent(text.split('"""')[1].split("It prints:\n\n")[1])
                told = subprocess.run(
                    [sys.executable, os.path.join(EXAMPLES, "run.py"), name[:-3]], env={**os.environ, "TARDISD": TARDISD},
                    stdin=subprocess.DEVNULL, stdout=subprocess.PIPE, timeout=60)
                self.assertEqual((told.returncode, told.stdout.decode()), (0, says))


if __name__ == "__main__":
    unittest.main()
