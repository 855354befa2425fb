#!/usr/bin/env python3
"""try_test_file.py [WRONG ..]: whether `test_file.py` can fail. Its parts run against `fake_tardisd.py`, which they must pass, and then
against the same with one thing wrong, which the part that looks at this must refuse, for that reason."""

import contextlib
import io
import os
import random
import shutil
import sys
import tempfile

import test_file

FAKE = os.path.join(os.path.dirname(os.path.abspath(__file__)), "fake_tardisd.py")
#: for each wrong way the part that refuses it, and words of what it says
REFUSED = {
    "loses": ("kills", "out of order"),
    "garbles": ("kills", "nobody asked for"),
    "answers": ("kills", "told, and"),
    "shows": ("kills", "that were shown"),
    "repeats": ("kills", "out of order"),
    "keeps": ("kills", "serves another site"),
    "leaves": ("ends", "isn't as it was served"),
    "cuts": ("damage", "a file that it should refuse"),
    "overwrites": ("foreign", "a file that it should refuse"),
    "ignores": ("foreign", "a file that it should refuse"),
    "touches": ("foreign", "is another"),
    "shares": ("held", "a file that it should refuse"),
    "stays": ("new", "isn't taken"),
}


def run(part, program, folder, data):
    choose = random.Random(5)
    if part == "new":
        test_file.test_new_files(program, folder, 12, choose)
    elif part == "ends":
        test_file.test_ends(program, folder, data, choose)
    elif part == "foreign":
        test_file.test_foreign_files(program, folder, data)
    elif part == "damage":
        test_file.test_damage(program, folder, data, choose)
    elif part == "held":
        test_file.test_held(program, folder, data)
    else:
        test_file.test_kills(program, folder, 25, choose)


def why_refused(part, wrong, data):
    """What the part says of the fake that does this wrong; nothing where it passes."""
    folder = tempfile.mkdtemp()
    try:
        with contextlib.redirect_stdout(io.StringIO()):
            run(part, [sys.executable, FAKE, *([wrong] if wrong else [])], folder, data)
        return None
    except Exception as fault:
        return str(fault)
    finally:
        shutil.rmtree(folder)


def main():
    folder = tempfile.mkdtemp()
    try:
        data = test_file.small_log([sys.executable, FAKE], folder, random.Random(5))
    finally:
        shutil.rmtree(folder)
    if not sys.argv[1:]:
        for part in sorted({part for part, _ in REFUSED.values()}):
            told = why_refused(part, "", data)
            assert told is None, "the part %r refuses the fake that does nothing wrong: %s" % (part, told)
            print("%s: passes" % part, flush=True)
    for wrong in sys.argv[1:] or REFUSED:
        part, words = REFUSED[wrong]
        told = why_refused(part, wrong, data)
        assert told is not None and words in told, "the part %r says of the fake that %s: %s" % (part, wrong, told)
        print("%s: the part %r says %s" % (wrong, part, told[:100]), flush=True)


if __name__ == "__main__":
    main()
