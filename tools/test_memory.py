#!/usr/bin/env python3
"""A server that may take only so much memory: what would take more is refused as want of memory, nothing changes by it, and the server goes
on: it reads, and it writes again once there is room.

usage: tools/test_memory.py [TARDISD [MEGABYTES]]

The program is ./tardisd of this repository, unless another is named. It is started under a bound on its address space, as
`prlimit --as=BYTES tardisd ..` and `LimitAS=` of systemd set one: 64 megabytes where none are named. Nothing is left behind."""

import os
import resource
import subprocess
import sys
import tempfile

HERE = os.path.dirname(os.path.abspath(__file__))
TOP = os.path.dirname(HERE)
sys.path[:0] = [os.path.join(TOP, "clients", "python")]

import tardis  # noqa: E402
from servers import PATIENCE, first_line, stop  # noqa: E402

VALUE, WRITES = b"v" * 4096, 16


def write(site, batch):
    """Commits keys of the batch."""
    with site.transaction() as txn:
        for n in range(WRITES):
            txn.put(b"key%d.%d" % (batch, n), VALUE)


def fill(site, most):
    """Commits until memory is wanting. Answers how many commits there were."""
    for batch in range(most):
        try:
            write(site, batch)
        except tardis.NoMemory:
            return batch
    raise AssertionError("memory was never wanting")


def reads_all(site, batches):
    return all(reads(site, batch) for batch in range(batches))


def reads(site, batch):
    """Whether the batch is read."""
    with site.transaction() as txn:
        return all(txn.value(b"key%d.%d" % (batch, n)) == VALUE for n in range(WRITES))


def test(program, size, address):
    server = subprocess.Popen(
        [program, "--listen", address, "--tidy"], stdin=subprocess.DEVNULL, stdout=subprocess.DEVNULL, stderr=subprocess.PIPE,
        preexec_fn=lambda: resource.setrlimit(resource.RLIMIT_AS, (size, size)))
    try:
        first_line(server)
        with tardis.connect(address, timeout=PATIENCE) as site, tardis.connect(address, timeout=PATIENCE) as other:
            site.open(follow=True)
            batches = fill(site, 2 * size // (WRITES * len(VALUE)))
            other.open(follow=True)
            assert reads_all(other, batches)
            known = other.stat().known
            assert server.poll() is None
            print("%d commits of %d KB in %d MB; then want of memory, %d states known, and all is read" % (batches, WRITES * len(VALUE) // 1024, size >> 20, known))
    finally:
        stop(server)


def main(program="./tardisd", megabytes="64"):
    with tempfile.TemporaryDirectory(prefix="memory") as folder:
        test(os.path.join(TOP, program), int(megabytes) << 20, "unix:" + os.path.join(folder, "site"))


if __name__ == "__main__":
    main(*sys.argv[1:])
