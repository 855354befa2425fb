#!/usr/bin/env python3
"""Runs an example against fresh servers: `examples/run.py cart`.

The program is ./tardisd at the top of the repository, or the one that the environment names as TARDISD. An example is called
with the address of each server; how many it takes stands in it as `SITES`.
"""

import os
import re
import select
import shutil
import subprocess
import sys
import tempfile

HERE = os.path.dirname(os.path.abspath(__file__))
TOP = os.path.dirname(HERE)
TARDISD = os.environ.get("TARDISD") or os.path.join(TOP, "tardisd")


def start(folder, site, sites):
    """A server, and its address, once it listens there."""
    address = "unix:" + os.path.join(folder, "site%d" % site)
    place = ["--sites", str(sites), "--site", str(site)] if sites > 1 else []
    process = subprocess.Popen([TARDISD, "--listen", address, *place], stdin=subprocess.DEVNULL, stderr=subprocess.PIPE)
    # a first start proves and builds the program, which takes its time
    told = b""
    while b"listens at" not in told:
        select.select([process.stderr], [], [])
        more = os.read(process.stderr.fileno(), 1000)
        if not more:
            sys.exit("the server didn't start: " + told.decode())
        told += more
    return process, address


def main():
    if len(sys.argv) != 2:
        sys.exit("usage: examples/run.py cart|counters|device|document|offices")
    program = os.path.join(HERE, sys.argv[1] + ".py")
    with open(program, encoding="utf-8") as file:
        sites = int(re.search(r"^SITES = (\d+)$", file.read(), re.MULTILINE).group(1))
    folder, servers = tempfile.mkdtemp(), []
    try:
        for site in range(1, sites + 1):
            servers.append(start(folder, site, sites))
        client = os.path.join(TOP, "clients", "python")
        told = subprocess.run([sys.executable, program, *[address for _, address in servers]], env={**os.environ, "PYTHONPATH": client})
        return told.returncode
    finally:
        for process, _ in servers:
            process.kill()
            process.wait()
        shutil.rmtree(folder)


if __name__ == "__main__":
    sys.exit(main())
