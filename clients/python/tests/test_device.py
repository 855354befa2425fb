"""The device of `examples/device.py`, killed at each step: what it changed offline is there once, and nothing of others is lost."""

import contextlib
import os
import signal
import sys
import time
import unittest

from servers_here import PATIENCE, TOP, OfModel, OfTardisd, OverServers, tardis

sys.path.insert(0, os.path.join(TOP, "examples"))

import device  # noqa: E402


def killed_after(steps, run):
    """Runs it in a process that is killed after so many steps, each a write to the disk or an exchange with the site. Whether it was."""
    left = [steps]

    def stepping(call):
        def stepped(*given):
            for moment in (0, 1):
                left[0] -= 1
                if left[0] < 0:
                    os.kill(os.getpid(), signal.SIGKILL)
                if moment == 0:
                    told = call(*given)
            return told
        return stepped

    child = os.fork()
    if child == 0:
        try:
            tardis.Site._exchange = stepping(tardis.Site._exchange)
            os.fsync, os.replace = stepping(os.fsync), stepping(os.replace)
            with contextlib.redirect_stdout(None):
                run()
            os._exit(0)
        except BaseException:
            import traceback
            traceback.print_exc()
            os._exit(1)
    _, status = os.waitpid(child, 0)
    if os.WIFEXITED(status):
        assert os.WEXITSTATUS(status) == 0, "the device failed"
    return os.WIFSIGNALED(status)


class Device(OverServers):
    def killed_at_each_step(self, is_collected):
        self.serve()
        phone, path = self.connect(), os.path.join(self.folder, "device.json")
        phone.open()
        with phone.transaction() as txn:
            txn.put("cart", "tea"), txn.put("visits", "10")
        items, visits, steps, was_killed = {"tea"}, 10, 0, True
        with contextlib.redirect_stdout(None), self.connect() as site:
            site.open()
            device.read(site, path, 1)
        while was_killed:
            steps += 1
            mine, others, gone = "d%d" % steps, "p%d" % steps, "d%d" % (steps - 2)
            with contextlib.redirect_stdout(None):
                device.change(path, add=[mine], remove=[gone])
                device.phone_writes(phone, others)
            items, visits = items - {gone} | {mine, others}, visits + 3
            if is_collected:
                # (the site sees the end of the device's connection when it sees it, and its session holds the floor until then)
                end = time.monotonic() + PATIENCE
                while phone.stat().sessions > 1 and time.monotonic() < end:
                    time.sleep(0.01)
                phone.raise_floor(), phone.tidy()
                self.assertRaises(tardis.Collected, phone.show, device.load(path)["state"])
            was_killed = killed_after(steps, lambda: device.come_back(self.address, path))
            with contextlib.redirect_stdout(None):
                device.come_back(self.address, path)
            kept = device.load(path)
            wanted = {"cart": ",".join(sorted(items)), "visits": str(visits)}
            self.assertEqual((kept["base"], kept["values"], phone.leaves().total), (wanted, wanted, 1), steps)
            self.assertEqual({key: (phone.value_at(key, kept["state"]) or b"").decode() for key in device.KEYS}, wanted)
        self.assertGreater(steps, 12)

    def test_where_the_state_is_kept(self):
        self.killed_at_each_step(False)

    def test_where_it_was_collected(self):
        self.killed_at_each_step(True)

    def test_a_state_above_the_ceiling_is_read_all_the_same(self):
        """As `docs/CLIENTS.md` says, 'A device that is offline'; and the refusal says so too."""
        self.serve()
        site = self.connect()
        site.open()
        for value in ("tea", "tea,milk", "jam"):
            with site.transaction() as txn:
                txn.put("cart", value)
        with self.assertRaisesRegex(tardis.Below, "value_at\\(key, '1.1'\\) reads there .*'A device that is offline'"):
            site.begin("1.1")
        self.assertEqual((site.value_at("cart", "1.1"), site.base("cart", ["1.1", txn.committed])), (
            b"tea", {tardis.StateId(1, 1): tardis.Value(tardis.StateId(1, 1), b"tea")}))
        # a session that is opened anew begins there as long as the site didn't promise otherwise
        other = self.connect()
        other.open()
        self.assertEqual(other.begin("1.1"), tardis.StateId(1, 1))
        other.close(), site.raise_floor()
        other.open()
        self.assertRaises(tardis.Below, other.begin, "1.1")
        self.assertEqual(other.value_at("cart", "1.1"), b"tea")


class DeviceOfTardisd(OfTardisd, Device):
    pass


class DeviceOfModel(OfModel, Device):
    pass


del Device

if __name__ == "__main__":
    unittest.main()
