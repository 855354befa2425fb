"""Hosts that are far apart, on one machine: a network namespace each, and a router between them that delays each packet and loses
some. It stands in for `tc netem` where the kernel hasn't it.

Needs root, `ip`, and /dev/net/tun. The addresses are 10.99.0.1 and up, and exist in these namespaces alone."""

import fcntl
import heapq
import os
import random
import select
import socket
import struct
import subprocess
import sys
import threading
import time

TUN_FLAGS = struct.pack("16sH22x", b"far", 0x0001 | 0x1000)  # IFF_TUN and IFF_NO_PI
MAKE_TUN = 0x400454CA
LONGEST_PACKET = 65535


def address_of(number):
    return "10.99.0.%d" % number


def give_device(folder):
    """Makes the device of the namespace that this is run in, and hands it over."""
    device = os.open("/dev/net/tun", os.O_RDWR)
    fcntl.ioctl(device, MAKE_TUN, TUN_FLAGS)
    with socket.socket(socket.AF_UNIX) as to:
        to.connect(folder)
        socket.send_fds(to, [b"device"], [device])


class Hosts:
    """So many hosts. Each packet between two takes `delay` seconds, and is lost with this chance."""

    def __init__(self, count, delay, loss, seed=1):
        self.delay, self.loss, self.random = delay, loss, random.Random(seed)
        self.names = ["far%d-%d" % (os.getpid(), n + 1) for n in range(count)]
        self.devices, self.passed, self.lost, self.is_over = [], 0, 0, False
        self.waker = socket.socketpair()

    def __enter__(self):
        try:
            for n, name in enumerate(self.names):
                self.make_host(n + 1, name)
        except BaseException:
            self.__exit__()
            raise
        self.thread = threading.Thread(target=self.carry, daemon=True)
        self.thread.start()
        return self

    def __exit__(self, *_fault):
        self.is_over = True
        self.waker[1].send(b"x")
        if hasattr(self, "thread"):
            self.thread.join()
        for device in self.devices:
            os.close(device)
        for name in self.names:
            subprocess.run(["ip", "netns", "del", name], stderr=subprocess.DEVNULL, check=False)

    def within(self, number):
        """The words that run a command at this host, the first being 1."""
        return ["ip", "netns", "exec", self.names[number - 1]]

    def make_host(self, number, name):
        subprocess.run(["ip", "netns", "add", name], check=True)
        path = "/tmp/%s" % name
        with socket.socket(socket.AF_UNIX) as door:
            door.bind(path)
            try:
                door.listen()
                door.settimeout(20)
                subprocess.run([*self.within(number), sys.executable, os.path.abspath(__file__), path], check=True)
                with door.accept()[0] as link:
                    self.devices.append(socket.recv_fds(link, 10, 1)[1][0])
            finally:
                os.unlink(path)
        for words in (["link", "set", "lo", "up"], ["addr", "add", address_of(number) + "/24", "dev", "far"], ["link", "set", "far", "up"]):
            subprocess.run([*self.within(number), "ip", *words], check=True)

    def carry(self):
        """Carries packets until it is over."""
        by_address = {socket.inet_aton(address_of(n + 1)): device for n, device in enumerate(self.devices)}
        waiting, order = [], 0
        while not self.is_over:
            now = time.monotonic()
            while waiting and waiting[0][0] <= now:
                _, _, device, packet = heapq.heappop(waiting)
                try:
                    os.write(device, packet)
                except OSError:
                    pass  # (the host goes away)
            pause = max(0, waiting[0][0] - now) if waiting else 1
            for device in select.select([*self.devices, self.waker[0]], [], [], pause)[0]:
                if device is self.waker[0]:
                    continue
                packet = os.read(device, LONGEST_PACKET)
                to = by_address.get(packet[16:20]) if packet[:1] == b"E" else None
                if to is None:
                    continue
                if self.random.random() < self.loss:
                    self.lost += 1
                    continue
                self.passed += 1
                order += 1
                heapq.heappush(waiting, (time.monotonic() + self.delay, order, to, packet))


if __name__ == "__main__":
    give_device(sys.argv[1])
