#!/usr/bin/env python3
"""Runs the tutorial: each command and each Python line of `docs/TUTORIAL.md`, and compares the answers.

`python3 clients/python/tests/test_tutorial.py --write` writes the answers into the page instead, and its picture.
"""

import code
import contextlib
import io
import json
import os
import re
import select
import shutil
import subprocess
import sys
import tempfile
import textwrap
import time
import unittest
import urllib.request

from servers_here import CLIENT, TARDISD, TOP, free_port, is_built, keeping_history

PAGE = os.path.join(TOP, "docs", "TUTORIAL.md")
PICTURE = os.path.join(TOP, "docs", "cart.svg")
#: no command takes longer, in seconds
PATIENCE = 60
MARK = "-- the command is over --"
#: the first of these that is installed looks at the page
BROWSERS = ("chromium", "chromium-browser", "google-chrome")


class Step:
    """A command or a statement, the answer that stands below it, and where. Or what is done on the page, and what this says then."""

    def __init__(self, is_python, first, is_on_page=False):
        self.is_python, self.source, self.answer, self.line, self.is_on_page = is_python, [first], [], 0, is_on_page


def steps_of(text):
    steps, step = [], None
    for number, line in enumerate(text.split("\n")):
        words = line[4:] if line.startswith("    ") else None
        if words is None:
            step = None
            if "press *Merge*" in line:
                steps.append(Step(False, line, True))
                steps[-1].answer = re.findall("The page says `([^`]*)`", line)
        elif words.startswith(("$ ", ">>> ")):
            step = Step(words.startswith(">"), words.split(" ", 1)[1])
            steps.append(step)
        elif step is not None and step.is_python and words.startswith("...") and not step.answer:
            step.source.append(words[4:])
        elif step is not None:
            step.answer.append(words)
        if step is not None:
            step.line = number
    return steps


class Runner:
    """One shell and one Python, in which all steps run."""

    def __init__(self):
        self.folder, self.port = os.path.join(tempfile.mkdtemp(), "tutorial"), str(free_port())
        self.shell = subprocess.Popen(["bash"], cwd=TOP, stdin=subprocess.PIPE, stdout=subprocess.PIPE, stderr=subprocess.STDOUT,
                                      env={**os.environ, "PYTHONIOENCODING": "utf-8"}, start_new_session=True)
        self.console = code.InteractiveConsole({"__name__": "__console__"})

    def here(self, text):
        """The page's words with the places of this run."""
        return text.replace("/tmp/tutorial", self.folder).replace("8000", self.port)

    def page(self, text):
        return text.replace(self.folder, "/tmp/tutorial").replace(self.port, "8000")

    def run(self, step):
        if step.is_on_page:
            return [self.on_the_page("http://127.0.0.1:%s/" % self.port)]
        answer = self.python(step.source) if step.is_python else self.command(step.source[0])
        return [line or "<BLANKLINE>" for line in self.page(answer).split("\n")[:-1]]

    def command(self, source):
        if not keeping_history():
            source = source.replace(" --keep-history", "")
        words = self.here(source).replace("./tardisd", TARDISD).replace("python3 ", sys.executable + " ")
        self.shell.stdin.write(("%s\necho '%s'\n" % (words, MARK)).encode())
        self.shell.stdin.flush()
        told, end = "", time.monotonic() + PATIENCE
        # what runs in the background has said its first line when it is there
        while MARK not in told or (source.endswith("&") and not re.search(r"(listens at|shows) .*\n", told)):
            ready, _, _ = select.select([self.shell.stdout], [], [], max(0, end - time.monotonic()))
            assert ready, "this took too long: %s; it said %r" % (source, told)
            more = os.read(self.shell.stdout.fileno(), 1 << 16)
            assert more, "the shell ended: %r" % told
            told += more.decode()
        return told.replace(MARK + "\n", "")

    def on_the_page(self, page):
        """Ticks both leaves, compares them, takes what the first has, and merges; and what the page says then. Without a browser it asks
        what the page asks."""
        browser = next(filter(None, map(shutil.which, BROWSERS)), None)
        if browser is not None:
            return self.in_a_browser(browser, page)

        def ask(path, body=None):
            data = None if body is None else json.dumps(body).encode()
            with urllib.request.urlopen(urllib.request.Request(page + path, data, {"Content-Type": "application/json"}), timeout=PATIENCE) as told:
                return json.load(told)

        leaves = ask("api/history?have=")["leaves"]
        compared = ask("api/compare?one=%s&other=%s" % tuple(leaves))
        values = [[conflict["key"], conflict["sides"][0]] for conflict in compared["conflicts"]]
        return "Joined as %s." % ask("api/merge", {"one": compared["states"][0], "other": compared["states"][1], "values": values})["id"]

    def in_a_browser(self, program, page):
        from test_page import Browser
        folder = tempfile.mkdtemp()
        browser = Browser(program, folder, page)
        try:
            browser.wait("document.querySelectorAll('label.leaf input').length === 2")
            for place in (0, 1):
                browser.click("document.querySelectorAll('label.leaf input')[%d]" % place)
            browser.click("document.getElementById('compare')")
            browser.wait("document.querySelectorAll('.conflict').length === 1")
            browser.click("document.querySelectorAll('.conflict .side button')[1]")
            browser.click("document.getElementById('join')")
            browser.wait("document.getElementById('merged') !== null")
            return browser.run("document.getElementById('merged').textContent")
        finally:
            browser.close()
            shutil.rmtree(folder, ignore_errors=True)

    def python(self, source):
        told = io.StringIO()
        with contextlib.redirect_stdout(told), contextlib.redirect_stderr(told):
            for line in source:
                self.console.push(self.here(line))
            if len(source) > 1 and source[-1]:
                self.console.push("")
        return told.getvalue()

    def close(self):
        for site in self.console.locals.values():
            if hasattr(site, "disconnect"):
                with contextlib.suppress(Exception):
                    site.disconnect()
        with contextlib.suppress(OSError):
            os.killpg(self.shell.pid, 9)
        self.shell.wait()
        self.shell.stdin.close()
        self.shell.stdout.close()
        shutil.rmtree(os.path.dirname(self.folder), ignore_errors=True)


class Tutorial(unittest.TestCase):
    def test_each_answer(self):
        if not is_built(TARDISD):
            raise unittest.SkipTest("tardisd isn't built")
        with open(PAGE, encoding="utf-8") as file:
            text = file.read()
        # each command that names a site stands in a block, and is run
        self.assertNotRegex(text, r"`[^`\n]*(python3|tardisd)[^`\n]* unix:[^`\n]*`")
        steps = steps_of(text)
        self.assertGreater(len(steps), 40)
        self.assertEqual([step.answer for step in steps if step.is_on_page], [["Joined as 1.10."]])
        runner = Runner()
        self.addCleanup(runner.close)
        for step in steps:
            self.assertEqual(runner.run(step), step.answer, "\n".join(step.source))
            if "--svg" in step.source[0]:
                with open(os.path.join(runner.folder, "history.svg"), encoding="utf-8") as drawn, open(PICTURE, encoding="utf-8") as kept:
                    self.assertEqual(drawn.read(), kept.read())


class Clients(unittest.TestCase):
    def test_the_first_program_of_the_page(self):
        """The program that `docs/CLIENTS.md` begins with, its resolver, and the drawing that it shows."""
        if not is_built(TARDISD):
            raise unittest.SkipTest("tardisd isn't built")
        with open(os.path.join(TOP, "docs", "CLIENTS.md"), encoding="utf-8") as file:
            blocks = [textwrap.dedent(block) for block in re.findall(r"(?:^(?:    .*)?\n)+", file.read(), re.MULTILINE) if block.strip()]
        program, = [block for block in blocks if block.strip().startswith("import tardis")]
        resolver, = [block for block in blocks if block.strip().startswith("def words(")]
        drawing, = [block for block in blocks if block.strip().startswith("●")]
        runner = Runner()
        self.addCleanup(runner.close)
        os.mkdir(runner.folder)
        runner.command("./tardisd --listen unix:/tmp/tutorial/carts &")
        told = io.StringIO()
        with contextlib.redirect_stdout(told):
            exec(program.replace("/tmp/carts", runner.folder + "/carts"), runner.console.locals)
        self.assertEqual(told.getvalue().split("\n")[-2], "b'jam,milk,tea'")
        self.assertEqual(runner.command("PYTHONPATH=clients/python python3 -m tardis graph unix:/tmp/tutorial/carts").strip(), drawing.strip())
        exec(resolver, runner.console.locals)
        words = runner.console.locals["words"]
        self.assertEqual((words(b"k", None, {1: b"a b", 2: None}), words(b"k", None, {1: None, 2: None})), (b"a b", None))


def write():
    """Writes the answers of a run into the page."""
    with open(PAGE, encoding="utf-8") as file:
        text = file.read()
    lines, runner = text.split("\n"), Runner()
    try:
        answers = []
        for step in steps_of(text):
            answers.append((step, runner.run(step)))
            if "--svg" in step.source[0]:
                shutil.copy(os.path.join(runner.folder, "history.svg"), PICTURE)
    finally:
        runner.close()
    for step, answer in reversed([it for it in answers if not it[0].is_on_page]):
        lines[step.line - len(step.answer) + 1:step.line + 1] = ["    " + line for line in answer]
    with open(PAGE, "w", encoding="utf-8") as file:
        file.write("\n".join(lines))


if __name__ == "__main__":
    if sys.argv[1:] == ["--write"]:
        write()
    else:
        unittest.main()
