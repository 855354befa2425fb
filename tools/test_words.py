#!/usr/bin/env python3
"""test_words.py PROGRAM: how `PROGRAM` ends with words that are no text (not UTF-8), and what it does.

Such words have no form of a command: the program ends with status 1 and its line on standard error, whichever word it is, also in
the place of a value; nothing is read, written or made. So it is with letters outside ASCII, which no word has; and the same lines
of words without these are commands."""
import os
import subprocess
import sys
import tempfile

PATIENCE = 20
WELL, USAGE = 0, 1
LINE = b"usage: tardis COMMAND OPTIONS\n"
# no byte of UTF-8; a first byte without its second; a surrogate; above the last character; and text that no word has
NO_TEXT = [b"\xff", b"carts\xc3", b"\xed\xa0\x80", b"\xf4\x90\x80\x80", "körbe".encode()]
# Open, by actor 1, and its reply
ASKED, TOLD = b"\x00\x00\x00\x04\x00\x01\x01\x00", b"\x00\x00\x00\x07\x01\x00\x00\x00\x00\x00\x00"


def ran(program, words, folder):
    """How the program ends in this folder, of what it was asked how much it read, and what it wrote."""
    with open(os.path.join(folder, "asked"), "wb") as file:
        file.write(ASKED)
    with open(os.path.join(folder, "asked"), "rb") as asked:
        run = subprocess.run([program.encode(), *words], stdin=asked, stdout=subprocess.PIPE, stderr=subprocess.PIPE, cwd=folder,
                             timeout=PATIENCE)
        read = os.lseek(asked.fileno(), 0, os.SEEK_CUR)
    return run.returncode, read, run.stdout, run.stderr, sorted(os.listdir(os.fsencode(folder)))


def is_usage(program, words):
    """Whether these words are a faulty command line, and nothing is done."""
    with tempfile.TemporaryDirectory() as folder:
        end = ran(program, words, folder)
    assert end == (USAGE, 0, b"", LINE, [b"asked"]), "%r ended with %r" % (words, end)


def is_text(program, words, made):
    """Whether these words are a command that answers, and makes this file."""
    with tempfile.TemporaryDirectory() as folder:
        end = ran(program, words, folder)
    assert end == (WELL, len(ASKED), TOLD, b"", sorted([b"asked", *made])), "%r ended with %r" % (words, end)


def main():
    program = os.path.abspath(sys.argv[1])
    is_text(program, [b"run"], [])
    is_text(program, [b"run", b"--sites", b"1"], [])
    is_text(program, [b"durable", b"--file", b"carts"], [b"carts"])
    for word in NO_TEXT:
        for words in ([word], [b"run", word], [word, b"run"], [b"run", b"--sites", word], [b"durable", b"--file", word],
                      [b"--help", word], [b"load", b"--start", word]):
            is_usage(program, words)
    print("%d words, each in 7 places: usage, and nothing is done" % len(NO_TEXT))


if __name__ == "__main__":
    main()
