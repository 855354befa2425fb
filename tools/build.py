#!/usr/bin/env python3
"""Runs a program of this repository with the words given. Where it isn't built, or its sources have changed, it is proved
and built first.

usage: tools/build.py PROGRAM [--unproved] [WORD ..]

`./tardis` and `./tardisd` call it. The crates below the program are proved side by side: as many as there are processors
and memory for, each once those that it stands on are there, and first those that hold up the others longest, by what each
took once (tools/seconds.txt). A crate on which so much waits that processors would be idle gets several of them.

Each is proved from nothing by the toolchain's `rattle`, as the merge gate does it: over the statements of the crates below,
whose proofs aren't loaded again. Its own statements are kept in its folder out/statements/, beside a sum of all that they
were made from, so what is proved stays proved: also of a build that was interrupted, which goes on with the next crate.

With --unproved the sources are run at once, by `rt try`, and nothing of that run is proved.
"""

import contextlib
import fcntl
import hashlib
import os
import secrets
import shutil
import signal
import subprocess
import sys
import tempfile
import time

TOP = os.path.dirname(os.path.dirname(os.path.abspath(__file__)))
PARTS = ("src", "specs", "proofs")
# The status where the program isn't there and can't be built.
STOPPED = 70
# What a check of one crate is likely to take of memory, in bytes.
ROOM = 3_000_000_000
# What a check takes before its first proof, in seconds of a processor.
LOADING = 7
# How many processors the proof of one crate has work for.
JOBS = 4
# How long nothing is told at most, in seconds.
SILENCE = 60
# How long a run that isn't proved may take, in seconds.
PATIENCE = 86_400


def say(text):
    print(text, file=sys.stderr, flush=True)


def stop(text):
    say(text)
    sys.exit(STOPPED)


def stop_without_rt(program):
    if not shutil.which("rt"):
        stop(f"{program}: the command rt of the toolchain isn't on the PATH; README.md says which one is needed")


class Toolchain:
    """The folder of the toolchain, and the words of its commands."""

    def __init__(self, program):
        stop_without_rt(program)
        # (it prints the path of a page that lies in the folder)
        page = subprocess.run(["rt", "doc"], stdout=subprocess.PIPE, check=True).stdout
        self.folder = os.path.dirname(os.fsdecode(page).strip())
        self.rattle = self.place("bin/rattle")
        self.version = subprocess.run(["rt", "version"], stdout=subprocess.PIPE, check=True).stdout

    def place(self, path):
        return os.path.join(self.folder, path)

    def keeps_statements(self):
        """Whether a crate can be proved over the statements of those below."""
        if not all(map(os.path.isfile, (self.rattle, self.place("bin/rattle-link")))):
            return False
        told = subprocess.run([self.rattle, "build", "--help"], stdout=subprocess.PIPE, stderr=subprocess.STDOUT, check=False)
        return b"--statements" in told.stdout

    def build(self, crate, jobs, target):
        """The words that prove the crate from nothing, and write its statements, or its program not yet linked."""
        libraries = {it: self.place(f"rlibs/{it}.rlib") for it in ("std", *crate.of_kit)}
        libraries.update((it.name, it.rlib) for it in crate.below if it.name in crate.deps)
        words = [self.rattle, "build", "--crate-name", crate.name, crate.root]
        for name, rlib in libraries.items():
            words += ["--extern", f"{name}={rlib}"]
        for folder in (self.place("rlibs"), *(os.path.dirname(it.rlib) for it in crate.below)):
            words += ["-L", f"dependency={folder}"]
        words += ["--antt-project", self.place("rattle/logic/antt-project.json"), "--logic-built", self.place("logic_built")]
        words += ["--links", f"{crate.name}=", "--jobs", str(jobs), "-o", target]
        return words + (["--toolchain", self.place("toolchain"), "--backend", "llvm"] if crate.is_program else ["--statements"])

    def link(self, made, target):
        """The words that link a program."""
        words = [self.place("bin/rattle-link"), "--target", "x86_64-unknown-linux-gnu", "--toolchain", self.place("toolchain")]
        return [*words, "-o", target, made, self.place("c/libos_c.a"), self.place("c/liblibc_c.a")]


class Crate:
    """A crate of the repository: the crates of the repository that it stands on, the toolchain's that it uses, all below it,
    when its text last changed, and how long its proof takes, roughly, in seconds of one quiet processor (`seconds`)."""

    def __init__(self, name, deps, of_kit, measured):
        self.name, self.deps, self.of_kit, self.below, self.measured = name, deps, of_kit, [], measured
        self.folder = os.path.join(TOP, "crates", name)
        self.is_program = os.path.isfile(os.path.join(self.folder, "src/main.rt"))
        self.root = "src/main.rt" if self.is_program else "src/lib.rt"
        self.home = os.path.join(self.folder, "out/statements")
        self.rlib = os.path.join(self.home, f"{name}.rlib")
        self.stamp, self.took = os.path.join(self.home, "stamp"), os.path.join(self.home, "seconds")
        walked = [os.path.join(at, it) for part in PARTS for at, _, found in os.walk(os.path.join(self.folder, part)) for it in found]
        self.files = sorted(walked)
        self.changed = max(map(os.path.getmtime, self.files), default=0)
        self.code = sum(os.path.getsize(it) for it in self.files if it.endswith(".rt"))

    @property
    def seconds(self):
        """By what it took once, with the bytes of code that it had; or by the bytes of its code, and of all code below, whose
        contracts are loaded: a line through forty crates."""
        if self.measured:
            seconds, code = self.measured
            return LOADING + max(1, seconds - LOADING) * self.code / code
        return max(LOADING, self.code / 600 + sum(it.code for it in self.below) / 15_000)

    def sum_up(self, version):
        """Sums up all that its statements are made from: its text, the toolchain, and the very statements of those below."""
        marks = [it.mark for it in self.below if it.name in self.deps]
        found = hashlib.sha256(repr((version, self.name, self.of_kit, marks)).encode())
        for path in self.files:
            with open(path, "rb") as file:
                found.update(repr((os.path.relpath(path, self.folder), file.read())).encode())
        return found.hexdigest()

    def look_for_proof(self, version):
        """Looks whether its statements are there, and were made from all that is there now; those below come first."""
        self.mark = ""
        with contextlib.suppress(OSError):
            with open(self.stamp, encoding="ascii") as file:
                found = file.read()
            if all(it.mark for it in self.below) and found.startswith(self.sum_up(version)):
                self.mark = found

    def keep(self, total):
        """Notes what its statements were made from, now that they are there. (A mark of their own tells them from those of
        another run, since what is made over statements fits no others.)"""
        self.mark = f"{total} {secrets.token_hex(8)}"
        with open(self.stamp, "w", encoding="ascii") as file:
            file.write(self.mark)

    def is_current(self):
        """Whether the program is newer than all text that it is made from, whoever built it."""
        with contextlib.suppress(OSError):
            made = os.path.getmtime(os.path.join(self.folder, "out", self.name))
            return made > max(os.path.getmtime(os.path.join(TOP, "crates.txt")), *(it.changed for it in [self, *self.below]))
        return False


def measured_seconds():
    """What crates took once: the seconds of a processor, and the bytes of code that they had then."""
    with contextlib.suppress(OSError):
        with open(os.path.join(TOP, "tools", "seconds.txt"), encoding="utf-8") as file:
            lines = [line.partition("#")[0].split() for line in file]
        return {it[0]: (int(it[1]), int(it[2])) for it in lines if it}
    return {}


def crates_below(program):
    """The program's crate and those below it, each behind those that it stands on."""
    measured = measured_seconds()
    with open(os.path.join(TOP, "crates.txt"), encoding="utf-8") as file:
        told = [line.partition("#")[0].partition(":") for line in file]
    lines = {name.split()[0]: deps.split() for name, colon, deps in told if colon}
    found = {}

    def visit(name):
        if name not in found:
            deps = [it for it in lines[name] if it in lines]
            for it in deps:
                visit(it)
            crate = found[name] = Crate(name, deps, [it for it in lines[name] if it not in lines], measured.get(name))
            crate.below = [it for it in found.values() if any(it is found[dep] or it in found[dep].below for dep in deps)]

    visit(program)
    return found


def behind(crates):
    """For each crate the seconds of the longest way from its start to the last crate's end."""
    longest = {}
    for name, crate in reversed(list(crates.items())):
        longest[name] = crate.seconds + max((longest[it] for it in longest if name in crates[it].deps), default=0)
    return longest


def free_memory():
    with open("/proc/meminfo", encoding="utf-8") as file:
        return next(1024 * int(line.split()[1]) for line in file if line.startswith("MemAvailable"))


def clock(seconds, jobs):
    """The seconds by the clock of a proof that takes so many of one processor, by so many, which do more work together than one."""
    return LOADING + max(0, seconds - LOADING) * (1 + 0.2 * (jobs - 1)) / jobs


def jobs_for(crate, crates, left, width):
    """How many processors the crate gets, where so many seconds of each crate are left: one, and those that would be idle until it is
    proved, as what doesn't stand on it keeps the others busy for less time."""
    others = sum(seconds for name, seconds in left.items() if name != crate.name and crate not in crates[name].below)
    idle = (width - 1) * crate.seconds - others
    return max(1, min(JOBS, 1 + int(idle // crate.seconds)))


def time_left(crates, todo, width):
    """The seconds that these crates take, side by side, each once those below are there, the longest way first."""
    longest, done, at, running = behind(crates), set(crates) - set(todo), 0.0, {}
    todo = set(todo)
    while todo or running:
        for name in sorted((it for it in todo if done.issuperset(crates[it].deps)), key=lambda it: -longest[it]):
            idle = width - sum(jobs for _, jobs in running.values())
            if idle < 1:
                break
            left = {it: crates[it].seconds for it in todo}
            left.update((it, end - at) for it, (end, _) in running.items())
            jobs = min(idle, jobs_for(crates[name], crates, left, width))
            todo.remove(name)
            running[name] = (at + clock(crates[name].seconds, jobs), jobs)
        name = min(running, key=lambda it: running[it][0])
        at, _ = running.pop(name)
        done.add(name)
    return at


class Guard:
    """Ends all that was started in its group of processes once this process has ended, however it did."""

    def __init__(self):
        given, self.held = os.pipe()
        ends = {"stdin": given, "stdout": subprocess.DEVNULL, "stderr": subprocess.DEVNULL}
        self.shell = subprocess.Popen(["sh", "-c", "read _; kill -9 0"], preexec_fn=os.setpgrp, **ends)
        os.close(given)

    def start(self, words, folder, log):
        join = lambda: os.setpgid(0, self.shell.pid)
        return subprocess.Popen(words, cwd=folder, stdin=subprocess.DEVNULL, stdout=log, stderr=log, preexec_fn=join)

    def close(self):
        os.close(self.held)
        self.shell.wait()


class Proof:
    """The proof of one crate that is at work, by so many processors at once."""

    def __init__(self, crate, jobs, total, words, log, guard, is_alone):
        self.crate, self.jobs, self.total, self.log, self.is_alone = crate, jobs, total, log, is_alone
        self.began = time.monotonic()
        with open(log, "wb") as file:
            self.process = guard.start(words, crate.folder, file)

    def seconds_left(self):
        """How many seconds of a processor are left of it, roughly."""
        return max(0.0, self.crate.seconds - self.jobs * (time.monotonic() - self.began))

    def status(self):
        """The status with which it ended, or None; what it took is noted beside the crate's statements."""
        pid, status, used = os.wait4(self.process.pid, os.WNOHANG)
        if not pid:
            return None
        # (so that the process isn't waited for twice)
        self.process.returncode = -os.WTERMSIG(status) if os.WIFSIGNALED(status) else os.WEXITSTATUS(status)
        if not self.process.returncode:
            with open(self.crate.took, "w", encoding="ascii") as file:
                file.write(f"{round(used.ru_utime + used.ru_stime)} {self.crate.code}\n")
        return self.process.returncode


class Build:
    """The proofs of a program's crates."""

    def __init__(self, program, crates, toolchain, guard, logs):
        self.program, self.crates, self.toolchain = program, crates, toolchain
        self.guard, self.logs, self.began = guard, logs, time.monotonic()
        for crate in crates.values():
            crate.look_for_proof(toolchain.version)
        self.todo = [name for name in crates if name != program and not crates[name].mark]
        self.longest = behind(crates)
        self.width = max(1, min(processors(), free_memory() // ROOM))
        self.at_first = time_left(crates, [*self.todo, program], self.width)
        self.alone, self.running, self.told = set(), [], self.began

    def minutes_left(self):
        """About how many minutes the rest takes, by how fast it went so far."""
        running = [it.crate.name for it in self.running]
        left = time_left(self.crates, [*self.todo, *running, self.program], self.width)
        past, gone = self.at_first - left, time.monotonic() - self.began
        pace = (gone + 60) / (past + 60)
        return max(1, round(left * pace / 60))

    def tell(self, what):
        """Tells how far it is, and what just came to be or is at work."""
        done = len(self.crates) - len(self.todo) - len(self.running) - 1
        say(f"[{done} of {len(self.crates)}] {what}, about {minutes(self.minutes_left())} more")
        self.told = time.monotonic()

    def run(self):
        """Proves the crates that aren't proved yet."""
        say(f"{self.program}: proving {len(self.todo) + 1} crates first, {self.width} side by side; about {minutes(self.minutes_left())}.")
        say("What is done stays done: this may be stopped, and goes on from there the next time.")
        while self.todo or self.running:
            self.start_ready()
            time.sleep(0.2)
            for proof in [it for it in self.running if it.status() is not None]:
                self.running.remove(proof)
                self.finish(proof)
            if time.monotonic() - self.told > SILENCE:
                self.tell(f"({', '.join(it.crate.name for it in self.running)})")

    def seconds_left(self):
        """For each crate that isn't proved the seconds that are left of it."""
        left = {it: self.crates[it].seconds for it in (*self.todo, self.program)}
        left.update((it.crate.name, it.seconds_left()) for it in self.running)
        return left

    def start_ready(self):
        lacking = {*self.todo, *(it.crate.name for it in self.running)}
        ready = sorted((it for it in self.todo if lacking.isdisjoint(self.crates[it].deps)), key=lambda it: -self.longest[it])
        for name in ready:
            idle, is_alone = self.width - sum(it.jobs for it in self.running), name in self.alone
            if any(it.is_alone for it in self.running) or idle < 1:
                return
            if self.running and (is_alone or free_memory() < ROOM):
                continue
            jobs = jobs_for(self.crates[name], self.crates, self.seconds_left(), self.width)
            self.start(self.crates[name], 1 if is_alone else min(idle, jobs), is_alone)

    def start(self, crate, jobs, is_alone):
        self.todo.remove(crate.name)
        shutil.rmtree(crate.home, ignore_errors=True)
        os.makedirs(crate.home)
        log, words = os.path.join(self.logs, f"{crate.name}.log"), self.toolchain.build(crate, jobs, crate.rlib)
        self.running.append(Proof(crate, jobs, crate.sum_up(self.toolchain.version), words, log, self.guard, is_alone))

    def finish(self, proof):
        crate, status = proof.crate, proof.process.returncode
        if status == 0 and crate.sum_up(self.toolchain.version) != proof.total:
            # (its text changed meanwhile)
            self.todo.append(crate.name)
        elif status == 0:
            crate.keep(proof.total)
            self.tell(crate.name)
        elif proof.is_alone or status != -signal.SIGKILL:
            failed(self.program, proof.log)
        else:
            # (most likely for memory: once more, with nothing beside it)
            self.alone.add(crate.name)
            self.todo.append(crate.name)


def minutes(count):
    return "a minute" if count == 1 else f"{count} minutes"


def processors():
    """How many processors may be used, by the control group's quota too."""
    found = len(os.sched_getaffinity(0))
    with contextlib.suppress(OSError, ValueError):
        with open("/sys/fs/cgroup/cpu.max", encoding="utf-8") as file:
            quota, period = map(int, file.read().split())
        found = min(found, max(1, quota // period))
    return found


def failed(program, log):
    """Tells the end of a log, and where the whole of it is."""
    kept = os.path.join(tempfile.mkdtemp(prefix=f"{program}-"), os.path.basename(log))
    shutil.copy2(log, kept)
    with open(kept, encoding="utf-8", errors="replace") as file:
        say("".join(file.readlines()[-20:]).rstrip())
    stop(f"{program}: the program wasn't built; all that was said is in {kept}")


@contextlib.contextmanager
def held(crates):
    """Keeps other builds, and other commands of `rt`, out of these crates' folders."""
    with contextlib.ExitStack() as folders:
        for crate in sorted(crates.values(), key=lambda it: it.folder):
            folder = os.open(crate.folder, os.O_RDONLY)
            folders.callback(os.close, folder)
            try:
                fcntl.flock(folder, fcntl.LOCK_EX | fcntl.LOCK_NB)
            except BlockingIOError:
                say(f"waiting for another build, or another rt, to finish in {crate.folder}")
                fcntl.flock(folder, fcntl.LOCK_EX)
        yield


def make(program, crates, toolchain, guard, folder):
    """Proves what isn't proved yet, and builds the program; logs and what isn't linked yet lie in the folder."""
    began, crate = time.time(), crates[program]
    made, linked = os.path.join(folder, f"{program}.o"), os.path.join(folder, program)
    work = Build(program, crates, toolchain, guard, folder)
    if work.todo:
        work.run()
    say(f"[{len(crates) - 1} of {len(crates)}] ({program}: its last crate is proved, and the program built)")
    log = os.path.join(folder, f"{program}.log")
    os.makedirs(crate.home, exist_ok=True)
    proof = Proof(crate, work.width, "", toolchain.build(crate, work.width, made), log, guard, True)
    while proof.status() is None:
        time.sleep(0.2)
    with open(log, "ab") as file:
        if proof.process.returncode or guard.start(toolchain.link(made, linked), crate.folder, file).wait():
            failed(program, log)
    # (in one step, so that nobody runs half a program; and text that changed meanwhile is newer)
    target = os.path.join(crate.folder, "out", program)
    os.makedirs(os.path.dirname(target), exist_ok=True)
    shutil.copy2(linked, f"{target}.new")
    os.utime(f"{target}.new", (began, began))
    os.replace(f"{target}.new", target)


def make_by_rt(program, crate, folder):
    """Has `rt` prove and build the program, one crate after another."""
    say(f"{program}: proving its crates first, one after another, which takes an hour or two")
    log = os.path.join(folder, f"{program}.log")
    with open(log, "wb") as file:
        ran = subprocess.run(["rt", "run", "--", "--version"], cwd=crate.folder, stdin=subprocess.DEVNULL, stdout=file, stderr=file)
    if ran.returncode:
        failed(program, log)


def build(program):
    """Proves and builds the program, unless it is there and newer than all that it is made from."""
    crates = crates_below(program)
    if crates[program].is_current():
        return
    toolchain = Toolchain(program)
    with tempfile.TemporaryDirectory(prefix=f"{program}-") as folder:
        if not toolchain.keeps_statements():
            make_by_rt(program, crates[program], folder)
            return
        with held(crates), contextlib.closing(Guard()) as guard:
            # (another build, for which this one waited, may have made it)
            if not crates[program].is_current():
                make(program, crates, toolchain, guard, folder)


def from_here(words):
    """These words with whole paths, since such a run is in a folder of its own."""
    was = ""
    for it in words:
        socket, colon, path = it.partition("unix:")
        if colon and not socket:
            yield colon + os.path.abspath(path)
        else:
            yield os.path.abspath(it) if was == "--file" else it
        was = it


def run_unproved(program, words):
    """Runs the program's sources as they are, and ends with its status."""
    stop_without_rt(program)
    say(f"{program}: NOTHING OF THIS RUN IS PROVED. It begins in a minute or two, and what it writes comes when it has ended.")
    with tempfile.TemporaryFile() as given:
        if program != "tardisd":
            # (rt reads no terminal, and no input that pauses)
            shutil.copyfileobj(sys.stdin.buffer, given)
            given.seek(0)
        call = ["rt", "try", "--steps", "1", "--seconds", str(PATIENCE), "--", *from_here(words)]
        ran = subprocess.Popen(call, cwd=os.path.join(TOP, "crates", program), stdin=given, stderr=subprocess.PIPE)
        for line in ran.stderr:
            # (what rt says of its second way to run a program, which takes no arguments)
            if not line.startswith((b"interpreter: no-answer", b"races: not looked for", b"checked: ended")):
                sys.stderr.buffer.write(line)
                sys.stderr.flush()
    return ran.wait()


def main(program, *words):
    # (so that what was done is put back, and the processes end)
    for it in (signal.SIGTERM, signal.SIGHUP):
        signal.signal(it, lambda number, _: sys.exit(128 + number))
    try:
        if words[:1] == ("--unproved",):
            return run_unproved(program, words[1:])
        build(program)
    except KeyboardInterrupt:
        return 128 + signal.SIGINT
    out = os.path.join(TOP, "crates", program, "out", program)
    call = [os.path.join(TOP, "tools", "launch.sh"), out] if program == "tardisd" else [out]
    os.execv(call[0], [*call, *words])


if __name__ == "__main__":
    sys.exit(main(*sys.argv[1:]))
