#!/usr/bin/env python3
"""Both ways to reach a site from another machine that docs/OPERATING.md shows, tried: through ssh, and through TLS with a certificate
for each client. Who has no key, or no certificate, is turned away before the site hears anything.

usage: tools/test_tunnels.py [TARDISD]

The program is ./tardisd of this repository, unless another is named. `ssh`, `sshd`, `stunnel4` and `openssl` have to be there
(Debian: openssh-server, openssh-client, stunnel4, openssl). All of it listens at 127.0.0.1 alone, with keys that are made for this
run. Nothing is left behind."""

import contextlib
import getpass
import os
import shutil
import socket
import subprocess
import sys
import tempfile
import time

HERE = os.path.dirname(os.path.abspath(__file__))
TOP = os.path.dirname(HERE)
sys.path[:0] = [os.path.join(TOP, "clients", "python")]

import tardis  # noqa: E402
from servers import PATIENCE, first_line, free_port, stop  # noqa: E402

NEEDED = ("ssh", "sshd", "ssh-keygen", "stunnel4", "openssl")


@contextlib.contextmanager
def running(words, **more):
    """A program that is ended at the end."""
    process = subprocess.Popen(words, stdin=subprocess.DEVNULL, stdout=subprocess.DEVNULL, **more)
    try:
        yield process
    finally:
        stop(process)


def done(words, folder):
    subprocess.run(words, cwd=folder, check=True, stdin=subprocess.DEVNULL, stdout=subprocess.DEVNULL, stderr=subprocess.DEVNULL)


def wait_for(there, what):
    """Waits until it is there."""
    end = time.monotonic() + PATIENCE
    while not there():
        assert time.monotonic() < end, "%s isn't there" % what
        time.sleep(0.05)


def listens(port):
    with socket.socket() as probe:
        return probe.connect_ex(("127.0.0.1", port)) == 0


def put_and_get(address, key):
    """A transaction through the address, and what it is read as in the next."""
    with tardis.connect(address, timeout=PATIENCE) as site:
        site.open()
        with site.transaction() as written:
            written.put(key, b"there")
        return value_of(site, key)


def value_of(site, key):
    with site.transaction() as read:
        return read.value(key)


def is_turned_away(address):
    """Whether nothing is answered there."""
    try:
        put_and_get(address, b"nobody")
    except (tardis.Disconnected, OSError):
        return True
    return False


# ===== ssh

def make_ssh_keys(folder):
    for name in ("host", "known", "stranger"):
        done(["ssh-keygen", "-q", "-t", "ed25519", "-N", "", "-f", name], folder)
    shutil.copy(os.path.join(folder, "known.pub"), os.path.join(folder, "authorized"))


def sshd_words(folder, port):
    """A server for this user alone that forwards, and gives no shell."""
    options = {
        "ListenAddress": "127.0.0.1:%d" % port,
        "HostKey": os.path.join(folder, "host"),
        "AuthorizedKeysFile": os.path.join(folder, "authorized"),
        "AuthenticationMethods": "publickey",
        "StrictModes": "no",
        "UsePAM": "no",
        "PidFile": "none",
    }
    words = [shutil.which("sshd"), "-D", "-e", "-f", "/dev/null"]
    for name, value in options.items():
        words += ["-o", "%s=%s" % (name, value)]
    return words


def ssh_words(folder, port, key, here, there):
    """What OPERATING.md shows, with this run's keys."""
    return [
        "ssh", "-N", "-F", "none", "-p", str(port), "-i", os.path.join(folder, key), "-o", "IdentitiesOnly=yes", "-o", "IdentityAgent=none",
        "-o", "BatchMode=yes", "-o", "StrictHostKeyChecking=no", "-o", "UserKnownHostsFile=/dev/null", "-o", "ExitOnForwardFailure=yes",
        "-L", "%s:%s" % (here, there), "%s@127.0.0.1" % getpass.getuser(),
    ]


def test_ssh(folder, site):
    make_ssh_keys(folder)
    if os.geteuid() == 0:
        os.makedirs("/run/sshd", exist_ok=True)
    port, here = free_port(), os.path.join(folder, "tunnel")
    with running(sshd_words(folder, port), stderr=subprocess.DEVNULL):
        wait_for(lambda: listens(port), "sshd")
        with running(ssh_words(folder, port, "known", here, site), stderr=subprocess.DEVNULL):
            wait_for(lambda: os.path.exists(here), "the tunnel")
            assert put_and_get("unix:" + here, b"ssh") == b"there"
        other = os.path.join(folder, "other")
        stranger = subprocess.run(ssh_words(folder, port, "stranger", other, site), stdin=subprocess.DEVNULL, capture_output=True, timeout=PATIENCE)
        assert stranger.returncode != 0 and b"denied" in stranger.stderr, stranger.stderr
        assert not os.path.exists(other)
    print("ssh: a client with a key is served, and one with another is turned away")


# ===== TLS

def make_certificates(folder):
    """An authority, a certificate of it for the site and for a client, and one of another authority."""
    for name in ("authority", "strangers"):
        done(["openssl", "req", "-x509", "-newkey", "ed25519", "-nodes", "-days", "1", "-subj", "/CN=" + name, "-keyout", name + ".key", "-out", name + ".pem"], folder)
    for name, by in (("site", "authority"), ("client", "authority"), ("stranger", "strangers")):
        done(["openssl", "req", "-newkey", "ed25519", "-nodes", "-subj", "/CN=" + name, "-keyout", name + ".key", "-out", name + ".csr"], folder)
        done(["openssl", "x509", "-req", "-in", name + ".csr", "-CA", by + ".pem", "-CAkey", by + ".key", "-CAcreateserial", "-days", "1", "-out", name + ".pem"], folder)


SERVER_SIDE = """foreground = yes
pid =
[site]
accept = 127.0.0.1:{port}
connect = {site}
cert = {folder}/site.pem
key = {folder}/site.key
CAfile = {folder}/authority.pem
verifyChain = yes
"""

CLIENT_SIDE = """foreground = yes
pid =
[site]
client = yes
accept = 127.0.0.1:{here}
connect = 127.0.0.1:{port}
CAfile = {folder}/authority.pem
verifyChain = yes
checkHost = site
{certificate}
"""


def stunnel(folder, name, text):
    """stunnel over these words."""
    path = os.path.join(folder, name)
    with open(path, "w", encoding="ascii") as out:
        out.write(text)
    return running(["stunnel4", path], stderr=subprocess.DEVNULL)


def certificate_of(folder, name):
    return "cert = {0}/{1}.pem\nkey = {0}/{1}.key".format(folder, name)


def test_tls(folder, site):
    make_certificates(folder)
    port = free_port()
    with stunnel(folder, "server.conf", SERVER_SIDE.format(port=port, site=site, folder=folder)):
        wait_for(lambda: listens(port), "stunnel")
        for name, certificate in (("client", certificate_of(folder, "client")), ("stranger", certificate_of(folder, "stranger")), ("nobody", "")):
            here = free_port()
            with stunnel(folder, name + ".conf", CLIENT_SIDE.format(here=here, port=port, folder=folder, certificate=certificate)):
                wait_for(lambda: listens(here), "the tunnel")
                address = "127.0.0.1:%d" % here
                if name == "client":
                    assert put_and_get(address, b"tls") == b"there"
                else:
                    assert is_turned_away(address), name
    print("TLS: a client with a certificate is served; one of another authority, and one without, are turned away")


def main(tardisd="./tardisd"):
    missing = [it for it in NEEDED if not shutil.which(it)]
    if missing:
        sys.exit("not there: " + " ".join(missing))
    with tempfile.TemporaryDirectory(prefix="tunnels") as folder:
        site = os.path.join(folder, "site")
        with running([os.path.join(TOP, tardisd), "--clients", "unix:" + site], stderr=subprocess.PIPE) as server:
            first_line(server)
            test_ssh(folder, site)
            test_tls(folder, site)
            with tardis.connect("unix:" + site, timeout=PATIENCE) as direct:
                direct.open()
                # (the two that were served have written, and nobody else)
                assert [value_of(direct, it) for it in (b"ssh", b"tls", b"nobody")] == [b"there", b"there", None]


if __name__ == "__main__":
    main(*sys.argv[1:])
