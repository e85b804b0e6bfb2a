"""The package 'dekarino': its values and words. Replies compare, copy and pickle; modules and what belongs to them say
what they are; texts and messages come in several forms."""
import copy
import pathlib
import pickle
import re
import unittest

import dekarino
from dekarino import Code, Module

ROOT = pathlib.Path(__file__).resolve().parent.parent.parent
CONFIG, TRACE = ROOT / "examples/readme/config.toml", ROOT / "examples/readme/trace.txt"


class Values(unittest.TestCase):
    def setUp(self):
        self.module = Module.open(ROOT / "examples/every_reply/config.toml")
        self.addCleanup(self.module.close)
        self.fms, self.dsp, self.air = map(self.module.partition, ["FMS", "DSP", "AIR"])
        self.out = self.fms.create_queuing_port("NAV_OUT", size=4, depth=2, direction=0)
        self.nav = self.dsp.create_queuing_port("NAV_IN", size=4, depth=2, direction=1)
        self.spd = self.dsp.create_sampling_port("SPD_IN", size=4, direction=1, refresh=50)
        self.spd_out = self.air.create_sampling_port("SPD_OUT", size=4, direction=0, refresh=50)

    def replies(self):
        """A reply of each class, and some that were refused."""
        self.spd_out.write(b"1").check()
        return [self.out.send(b"1"), self.out.send(b""), self.nav.status(), self.nav.receive(), self.nav.receive(),
                self.spd.read(), self.spd.status(), self.fms.get_queuing_port_id("NAV_OUT"), self.fms.set_mode(4)]

    def test_replies_compare(self):
        first, second = self.replies(), self.replies()
        self.assertEqual(first, second)
        self.assertEqual([*map(hash, first)], [*map(hash, second)])
        self.assertEqual(len(set(first)), len(first))
        self.out.send(b"2").check()
        self.assertNotEqual(self.nav.receive(), first[3])
        self.assertNotEqual(self.out.send(b"1"), self.spd_out.write(b"1"))
        self.assertNotEqual(first[0], "NO_ERROR")

    def test_replies_are_copied_and_pickled(self):
        for reply in self.replies():
            for other in (copy.copy(reply), copy.deepcopy(reply), pickle.loads(pickle.dumps(reply))):
                self.assertIs(type(other), type(reply))
                self.assertEqual((other, repr(other), other.words), (reply, repr(reply), reply.words))
                if reply.code is not Code.NO_ERROR:
                    with self.assertRaises(dekarino.ApexError) as raised:
                        reply.check()
                    with self.assertRaises(dekarino.ApexError) as again:
                        other.check()
                    self.assertEqual(str(again.exception), str(raised.exception))

    def test_replies_are_neither_true_nor_false(self):
        for reply in self.replies():
            with self.assertRaisesRegex(TypeError, "^a reply is neither true nor false: ask for its .code"):
                bool(reply)

    def test_what_they_are(self):
        said = {self.module: "<Module of FMS, DSP, AIR>", self.fms: "<Partition FMS>",
                self.out: "<QueuingPort NAV_OUT of partition FMS, identifier 1>",
                self.spd: "<SamplingPort SPD_IN of partition DSP, identifier 2>",
                self.fms.queuing_port(9): "<QueuingPort number 9 of partition FMS, identifier 9>",
                self.module.channel("NAV"): "<Channel NAV, queuing, size 4, depth 2>",
                self.module.channel("SPD"): "<Channel SPD, sampling, size 4>"}
        for what, words in said.items():
            self.assertEqual(repr(what), words)
            for act in (copy.copy, copy.deepcopy, pickle.dumps):
                self.assertRaisesRegex(TypeError, "can neither be copied nor pickled", act, what)
        self.module.close()
        self.assertEqual(repr(self.module), "<Module of FMS, DSP, AIR, closed>")

    def test_messages(self):
        numbers = memoryview(bytes(range(8))).cast("H")
        for sent, wanted in ((bytearray(b"\x01\x02"), b"\x01\x02"), (memoryview(b"\x01\x02"), b"\x01\x02"),
                             (memoryview(b"\x01\x02\x03\x04")[::2], b"\x01\x03"), (numbers[1:3], b"\x02\x03\x04\x05")):
            self.out.send(sent).check()
            self.out.send_many([sent])[0].check()
            self.assertEqual([it.message for it in self.nav.receive_many(2)], [wanted] * 2)
            self.spd_out.write(sent).check()
            self.assertEqual(self.spd.read().message, wanted)


class Texts(unittest.TestCase):
    def test_bytes_of_other_kinds(self):
        wanted = dekarino.replay(CONFIG, TRACE)
        for kind in (bytearray, memoryview):
            config, trace = (kind(it.read_bytes()) for it in (CONFIG, TRACE))
            with Module.open(config) as module:
                self.assertEqual(module.partitions, ("FMS", "DSP"))
            self.assertEqual(dekarino.replay(config, trace), wanted)
        self.assertEqual(Module(str(CONFIG)).partitions, ("FMS", "DSP"))

    def test_a_text_that_is_given_as_str(self):
        for text in (CONFIG.read_text(), "partition = []", "1 FMS\n", "a\r"):
            for act in (Module, Module.open, lambda it: dekarino.replay(it, b""),
                        lambda it: dekarino.replay(CONFIG, it), lambda it: dekarino.judge(CONFIG, it)):
                with self.assertRaises(ValueError) as raised:
                    act(text)
                self.assertRegex(str(raised.exception), "is a text and not the path of a file: give a text as bytes")
        self.assertRaises(FileNotFoundError, Module.open, "nothing.toml")

    def test_version(self):
        self.assertEqual(dekarino.__version__, re.search(r"^## (.*)$", (ROOT / "CHANGES.md").read_text(), re.M)[1])


if __name__ == "__main__":
    unittest.main()
