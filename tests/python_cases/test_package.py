"""The package 'dekarino': the services, what is refused, what a configuration says, threads and a fork."""
import copy
import gc
import os
import pathlib
import subprocess
import sys
import threading
import unittest

import dekarino
from dekarino import Code, Mode, Module, NoCallError, Validity

ROOT = pathlib.Path(__file__).resolve().parent.parent.parent
BOTH = ROOT / "examples/every_reply/config.toml"
WRITTEN_OTHERWISE = rb'''# TOML in other forms
"partition" = [
    { 'name' = "F\u004dS", port = [ # a comment, with ] and }
        { name = 'OUT', "kind" = "queuing", direction = """source""", channel = "N\x41V", },
    ] }, { name = """
DSP""", port = [{ name = "IN", kind = "queuing", direction = "destination", channel = "NAV" }] },
]

[[ channel ]]
name = """NA\
    V"""
kind = "queuing"
size = 0x1_0
depth = +2
'''


class Services(unittest.TestCase):
    def setUp(self):
        self.module = Module.open(BOTH)
        self.addCleanup(self.module.close)
        self.fms, self.dsp, self.air = map(self.module.partition, ["FMS", "DSP", "AIR"])

    def queuing(self):
        return (self.fms.create_queuing_port("NAV_OUT", size=4, depth=2, direction=0),
                self.dsp.create_queuing_port("NAV_IN", size=4, depth=2, direction=1))

    def test_queuing(self):
        out, nav = self.queuing()
        self.assertEqual((out.id, out.name, nav.id), (1, "NAV_OUT", 1))
        self.assertIs(out.send(b"\x0a").code, Code.NO_ERROR)
        out.send(bytearray(b"\x0b")).check()
        self.assertIs(out.send(b"\x0c").code, Code.NOT_AVAILABLE)
        self.assertEqual(nav.status().check(), (2, 2, 4, dekarino.Direction.DESTINATION))
        status = nav.status()
        self.assertEqual((status.waiting, status.depth, status.size, status.direction), (2, 2, 4, 1))
        self.assertEqual((nav.receive().message, nav.receive().check()), (b"\x0a", b"\x0b"))
        empty = nav.receive()
        self.assertEqual((empty.code, empty.message), (Code.NOT_AVAILABLE, None))
        out.send(b"\x0d").check()
        nav_channel = self.module.channel("NAV")
        self.assertEqual(nav_channel.messages, (b"\x0d",))
        self.assertIs(nav.clear().code, Code.NO_ERROR)
        self.assertEqual(nav_channel.messages, ())
        self.assertEqual([nav_channel.accepted, nav_channel.received, nav_channel.cleared, nav_channel.waiting],
                         [3, 2, 1, 0])

    def test_sampling(self):
        spd = self.dsp.create_sampling_port("SPD_IN", size=4, direction=1, refresh=50)
        out = self.air.create_sampling_port("SPD_OUT", size=4, direction=0, refresh=50)
        self.assertIs(spd.read().code, Code.NO_ACTION)
        self.assertIsNone(self.module.channel("SPD").sample)
        self.module.at(7)
        out.write(b"\x00\xff").check()
        self.module.at(57)
        self.assertEqual(spd.read().check(), (b"\x00\xff", Validity.VALID))
        self.module.at(58)
        read, status = spd.read(), spd.status()
        self.assertEqual((read.message, read.validity), (b"\x00\xff", Validity.INVALID))
        self.assertEqual((status.refresh, status.size, status.direction, status.last_validity), (50, 4, 1, 0))
        self.assertEqual(self.module.channel("SPD").sample, (b"\x00\xff", 7))

    def test_identifiers_and_modes(self):
        self.assertIs(self.fms.get_queuing_port_id("NAV_OUT").code, Code.INVALID_CONFIG)
        self.queuing()
        self.assertEqual(self.fms.get_queuing_port_id("NAV_OUT").id, 1)
        self.assertIs(self.fms.mode, Mode.COLD_START)
        self.fms.set_mode(Mode.NORMAL).check()
        self.assertIs(self.fms.set_mode(4).code, Code.INVALID_PARAM)
        self.fms.set_mode(Mode.IDLE).check()
        self.assertIs(self.fms.set_mode(Mode.NORMAL).code, Code.NOT_MADE)
        self.assertEqual((self.fms.mode, self.fms.calls), (Mode.IDLE, 7))

    def test_errors_name_who_asked_what(self):
        out, _ = self.queuing()
        with self.assertRaises(dekarino.ApexError) as raised:
            out.send(b"12345").check()
        self.assertEqual(str(raised.exception),
                         "partition FMS, port NAV_OUT: SEND_QUEUING_MESSAGE answered INVALID_CONFIG (message of 5 "
                         "bytes, channel NAV takes 4)")
        with self.assertRaises(dekarino.ApexError) as raised:
            self.queuing()
        self.assertIs(raised.exception.code, Code.NO_ACTION)

    def test_what_is_no_call(self):
        out, _ = self.queuing()
        before = self.module.report()
        for wrong in (lambda: self.module.partition("NONE"), lambda: self.module.channel("NAV_OUT"),
                      lambda: self.module.partition("F.M"), lambda: self.module.channel(""),
                      lambda: self.fms.port("NAV_IN"), lambda: self.fms.port("\u00e4"),
                      lambda: self.fms.get_queuing_port_id("NAV.OUT"), lambda: self.fms.get_sampling_port_id("\u00e4"),
                      lambda: self.fms.create_queuing_port("", size=4, depth=2, direction=0),
                      lambda: self.fms.create_queuing_port("NAV_OUT", size=-1, depth=2, direction=0),
                      lambda: self.fms.create_queuing_port("NAV_OUT", size=2**32, depth=2, direction=0),
                      lambda: self.module.at(-1), lambda: self.module.at(2**63)):
            self.assertRaises(NoCallError, wrong)
        for wrong, kind in (("text", "str"), (5, "int"), (None, "NoneType")):
            self.assertRaisesRegex(TypeError, f"^a message is bytes, bytearray or memoryview, and not {kind}$", out.send, wrong)
        self.assertRaises(TypeError, copy.copy, self.module)
        self.assertEqual(self.module.report(), before)

    def test_after_closing(self):
        out, nav = self.queuing()
        channel = self.module.channel("NAV")
        self.module.close()
        self.module.close()
        for wrong in (lambda: out.send(b"1"), nav.receive, nav.status, nav.clear, lambda: self.fms.mode,
                      lambda: channel.accepted, lambda: channel.sample,
                      lambda: self.module.at(1), lambda: self.module.partition("FMS"), lambda: channel.messages,
                      lambda: self.module.partitions, lambda: self.module.channels, lambda: self.fms.ports,
                      lambda: self.fms.port("NAV_OUT"), lambda: self.fms.queuing_port(1)):
            with self.assertRaisesRegex(NoCallError, "^the module is closed$"):
                wrong()


class Configured(unittest.TestCase):
    """What the configuration of tests/c_readers.c says, as it is worked out beside it."""

    def setUp(self):
        self.module = Module.open(ROOT / "tests/c_readers.toml")
        self.addCleanup(self.module.close)

    def lines(self):
        module = self.module
        kind = {False: "sampling", True: "queuing"}
        yield f"{len(module.partitions)} partitions, {len(module.channels)} channels"
        for number, name in enumerate(module.partitions):
            ports = module.partition(name).ports
            yield f"partition {number} {name}, {len(ports)} ports"
            for port in ports:
                yield (f"port {port.id} {port.name} {kind[port.is_queuing]} {port.direction.name} "
                       f"channel {module.channels.index(port.channel)} refresh {port.refresh}")
        for number, name in enumerate(module.channels):
            channel = module.channel(name)
            yield f"channel {number} {name} {kind[channel.is_queuing]} size {channel.size} depth {channel.depth}"

    def test_what_is_configured(self):
        self.assertEqual(list(self.lines()), (ROOT / "tests/c_readers.txt").read_text().splitlines())

    def test_ports_by_name(self):
        for partition in map(self.module.partition, self.module.partitions):
            for port in partition.ports:
                self.assertEqual(partition.port(port.name), port)
                self.assertEqual(partition.queuing_port(port.id).name, port.name)
        last = self.module.partition("A").queuing_port(3)
        self.assertEqual((last.name, last.status().code), ("number 3", Code.INVALID_PARAM))

    def test_what_is_not_there(self):
        for asked, said in ((lambda: self.module.partition("B"), "there is no partition B; the partitions are A, AB, "),
                            (lambda: self.module.channel("NA"), "there is no channel NA; the channels are S, NAV_2"),
                            (lambda: self.module.partition("AB").port("OUT"),
                             "partition AB has no port OUT; its ports are none")):
            with self.assertRaisesRegex(NoCallError, f"^{said}"):
                asked()

    def test_waiting_messages(self):
        a, last = map(self.module.partition, self.module.partitions[::2])
        out = a.create_queuing_port("OUT", size=1024, depth=3, direction=0)
        nav = last.create_queuing_port("QRSTUVWXYZ_qrstuvwxyz_98765432", size=1024, depth=3, direction=1)
        channel, sent = self.module.channel("NAV"), [b"\x01" * 1024, b"\x02", bytes(3)]
        for count, message in enumerate(sent, 1):
            out.send(message).check()
            self.assertEqual(channel.messages, tuple(sent[:count]))
        nav.receive().check()
        self.assertEqual((channel.messages, channel.waiting), (tuple(sent[1:]), 2))
        self.assertEqual(self.module.channel("S").messages, ())


class Texts(unittest.TestCase):
    def test_another_form(self):
        with Module.open(WRITTEN_OTHERWISE) as module:
            out = module.partition("FMS").create_queuing_port("OUT", size=16, depth=2, direction=0)
            out.send(b"1").check()
            self.assertEqual(module.channel("NAV").waiting, 1)
            self.assertEqual(module.report(), dekarino.replay(
                WRITTEN_OTHERWISE, b"0 FMS create-queuing OUT 16 2 0 0\n0 FMS send 1 31\n").text)

    def test_examples(self):
        for config in sorted(ROOT.glob("examples/*/config.toml")):
            with Module.open(config) as module:
                self.assertEqual(module.report(), dekarino.replay(config, b"").text)

    def test_faults(self):
        for config in sorted(ROOT.glob("examples/faults/*.toml")):
            with self.assertRaises(dekarino.ConfigError) as raised:
                Module.open(config)
            self.assertEqual(f"# {raised.exception}".splitlines()[0],
                             f"{config.read_text().splitlines()[0]} at {raised.exception.place}")
        with self.assertRaises(dekarino.TraceError) as raised:
            dekarino.replay(BOTH, b"\n1 FMS nothing\n")
        self.assertEqual(str(raised.exception), "trace line 2 fault 6: unknown call")

    def test_library_that_is_not_there(self):
        environment = {**os.environ, "DEKARINO_LIBRARY": "/nowhere.so", "PYTHONPATH": str(ROOT / "python")}
        ran = subprocess.run([sys.executable, "-B", "-c", f"import dekarino; dekarino.Module.open({str(BOTH)!r})"],
                             env=environment, capture_output=True, text=True)
        self.assertIn("LibraryError: /nowhere.so is no shared object", ran.stderr)


class Threads(unittest.TestCase):
    def test_threads_fork_and_collection(self):
        module = Module.open(BOTH)
        out = module.partition("FMS").create_queuing_port("NAV_OUT", size=4, depth=2, direction=0)
        dsp = module.partition("DSP")
        nav = dsp.create_queuing_port("NAV_IN", size=4, depth=2, direction=1)
        del module
        gc.collect()
        received, count = [], 2_000

        def send():
            for number in range(count):
                while out.send(number.to_bytes(4, "big")).code is not Code.NO_ERROR:
                    pass

        def receive():
            while len(received) < count:
                received.extend(it for it in [nav.receive().message] if it is not None)

        threads = [threading.Thread(target=it) for it in (send, receive)]
        for thread in threads:
            thread.start()
        statuses = [self.child(dsp, nav) for _ in range(5)]
        for thread in threads:
            thread.join()
        self.assertEqual(received, [number.to_bytes(4, "big") for number in range(count)])
        self.assertEqual(statuses, [0] * 5)

    def child(self, dsp, nav):
        """The status of a process that is forked while others call, and calls on its own copy."""
        process = os.fork()
        if process == 0:
            calls = dsp.calls
            nav.status().check()
            os._exit(dsp.calls != calls + 1)
        return os.waitstatus_to_exitcode(os.waitpid(process, 0)[1])


if __name__ == "__main__":
    unittest.main()
