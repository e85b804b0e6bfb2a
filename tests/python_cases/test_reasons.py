"""The package 'dekarino': why a service answers what it answers, why a configuration is refused, and judged logs."""
import pathlib
import re
import unittest

import dekarino
from dekarino import Code, Module, Row
from dekarino._rows import ACCEPTED, SERVICE_NUMBERS

ROOT = pathlib.Path(__file__).resolve().parent.parent.parent
BOTH, RECORDED = ROOT / "examples/every_reply/config.toml", ROOT / "examples/recorded"
HEADER = (ROOT / "c/apex_ports.h").read_text()


def constants(kind):
    """The constants of an enumeration of c/apex_ports.h, with what a comment behind them says first."""
    text = re.search(rf"enum {kind} {{(.*?)}};", HEADER, re.S)[1]
    return [(name, int(number), word) for name, number, word in
            re.findall(r"APEX_(\w+) = (\d+),?(?: +/\* ([\w ]*\w))?", text)]


class Numbers(unittest.TestCase):
    """The rows and the services, beside the header and the names of crates/apex_words."""

    def test_rows(self):
        rows = [(name, number) for name, number, _ in constants("apex_row")]
        self.assertEqual(rows, [(f"ROW_{row.name}", row.value) for row in Row])

    def test_names_of_rows(self):
        names = re.findall(r'=> "(.*)"', (ROOT / "crates/apex_words/src/names.rt").read_text())
        self.assertEqual({name.upper().replace(" ", "_") for name in names}, {row.name for row in Row})

    def test_services(self):
        services = {name: number for name, number, _ in constants("apex_service")}
        self.assertEqual(services, SERVICE_NUMBERS)
        self.assertEqual({row for row in Row if row >= Row.CREATED}, set(ACCEPTED.values()))


class Reasons(unittest.TestCase):
    def setUp(self):
        self.module = Module.open(BOTH)
        self.addCleanup(self.module.close)
        self.fms, self.dsp = map(self.module.partition, ["FMS", "DSP"])

    def says(self, reply, code, row, words):
        self.assertEqual((reply.code, reply.row, reply.words), (code, row, words))
        said = next(word for name, _, word in constants("apex_row") if name == f"ROW_{row.name}")
        self.assertEqual(said.upper().replace(" ", "_"), code.name)

    def test_one_code_has_several_rows(self):
        out = self.fms.create_queuing_port("NAV_OUT", size=4, depth=2, direction=0)
        self.says(out.send(b""), Code.INVALID_PARAM, Row.EMPTY_MESSAGE, "message of 0 bytes")
        self.says(self.fms.queuing_port(2).send(b"1"), Code.INVALID_PARAM, Row.NO_SUCH_PORT,
                  "no queuing port of identifier 2 is created")
        self.says(out.send(b"12345"), Code.INVALID_CONFIG, Row.MESSAGE_TOO_LONG,
                  "message of 5 bytes, channel NAV takes 4")
        self.says(out.send(bytes(1025)), Code.INVALID_CONFIG, Row.MESSAGE_TOO_LONG,
                  "message of 1025 bytes, channel NAV takes 4")
        self.says(self.fms.queuing_port(2).send(bytes(1025)), Code.INVALID_PARAM, Row.NO_SUCH_PORT,
                  "no queuing port of identifier 2 is created")
        self.says(self.dsp.get_queuing_port_id("NAV_IN"), Code.INVALID_CONFIG, Row.NOT_CREATED,
                  "no queuing port NAV_IN is created")
        self.says(out.receive(), Code.INVALID_MODE, Row.NOT_A_DESTINATION, "port NAV_OUT is a source")

    def test_rows_of_accepted_calls(self):
        out = self.fms.create_queuing_port("NAV_OUT", size=4, depth=2, direction=0)
        replies = [out.send(b"1"), out.status(), self.fms.get_queuing_port_id("NAV_OUT"), self.fms.set_mode(3)]
        self.assertEqual([(reply.row, reply.words) for reply in replies],
                         [(row, "") for row in (Row.SENT, Row.QUEUING_STATUS, Row.IDENTIFIED, Row.MODE_SET)])

    def test_a_row_is_that_of_its_call(self):
        """What comes afterwards changes nothing of it."""
        nav = self.dsp.create_queuing_port("NAV_IN", size=4, depth=2, direction=1)
        empty = nav.receive()
        self.fms.create_queuing_port("NAV_OUT", size=4, depth=2, direction=0).send(b"1").check()
        nav.receive().check()
        self.dsp.set_mode(dekarino.Mode.IDLE).check()
        self.says(nav.receive(), Code.NOT_MADE, Row.IN_IDLE, "partition is in IDLE")
        self.says(empty, Code.NOT_AVAILABLE, Row.QUEUE_EMPTY, "no message waits on NAV")
        self.assertEqual(self.dsp.calls, 5)

    def test_errors_say_why(self):
        for size, row, words in ((5, Row.SIZE_DIFFERS, "size 5, configured 4"),
                                 (4, Row.DEPTH_DIFFERS, "depth 3, configured 2")):
            with self.assertRaises(dekarino.ApexError) as raised:
                self.fms.create_queuing_port("NAV_OUT", size=size, depth=3, direction=0)
            error = raised.exception
            self.assertEqual((error.row, error.words), (row, words))
            self.assertEqual(str(error), "partition FMS, port NAV_OUT: CREATE_QUEUING_PORT answered INVALID_CONFIG "
                                         f"({words})")


class Faults(unittest.TestCase):
    def test_place_and_lines(self):
        with self.assertRaises(dekarino.ConfigError) as raised:
            Module.open(ROOT / "examples/faults/destinations.toml")
        error = raised.exception
        lines = tuple(f"partition DSP{number}, port NAV_IN: it is one of 2 destination ports of channel NAV; there "
                      "must be exactly 1" for number in (1, 2))
        self.assertEqual((error.number, error.words, error.place, error.lines),
                         (9, "destinations", "partition[1].port[0]", lines))
        self.assertEqual(str(error), "\n".join(["config fault 9: destinations at partition[1].port[0]", *lines]))

    def test_a_text_that_is_no_toml(self):
        with self.assertRaises(dekarino.ConfigError) as raised:
            Module.open(b"partition = [\n  nothing ]\n")
        self.assertEqual((raised.exception.number, raised.exception.place), (1, "configuration"))
        self.assertRegex(raised.exception.lines[0], "^line 2, column [0-9]+: ")


class Judged(unittest.TestCase):
    def test_departures(self):
        judged = dekarino.judge(RECORDED / "config.toml", RECORDED / "log.txt")
        self.assertEqual(judged, dekarino.Judgement(8, (
            dekarino.Departure(6, 50, "DSP", "receive", "NO_ERROR message 0c0d", "NO_ERROR message 0a0b",
                               Row.RECEIVED, ""),
            dekarino.Departure(8, 70, "FMS", "send", "NO_ERROR", "INVALID_CONFIG", Row.MESSAGE_TOO_LONG,
                               "message of 5 bytes, channel NAV takes 4"))))

    def test_a_module_conforms(self):
        with Module.open(BOTH) as module:
            out = module.partition("FMS").create_queuing_port("NAV_OUT", size=4, depth=2, direction=0)
            log = f"0 FMS create-queuing NAV_OUT 4 2 0 0 -> NO_ERROR id {out.id}\n0 FMS send 1 31 -> {out.send(b'1')}\n"
        self.assertEqual(dekarino.judge(BOTH, log.encode()), dekarino.Judgement(2, ()))

    def test_time_outs(self):
        log = b"0 DSP create-queuing NAV_IN 4 2 1 0 -> NO_ERROR id 1\n1 DSP receive 1 -> TIMED_OUT\n"
        self.assertEqual(dekarino.judge(BOTH, log, time_outs=True), dekarino.Judgement(2, ()))
        self.assertEqual([it.line for it in dekarino.judge(BOTH, log).departures], [2])

    def test_identifiers_of_the_system(self):
        log = b"0 FMS create-queuing NAV_OUT 4 2 0 0 -> NO_ERROR id 4097\n1 FMS send 4097 31 -> NO_ERROR\n"
        self.assertEqual(dekarino.judge(BOTH, log, own_ids=True), dekarino.Judgement(2, ()))
        self.assertEqual([it.line for it in dekarino.judge(BOTH, log).departures], [1, 2])

    def test_refusals(self):
        with self.assertRaises(dekarino.LogError) as raised:
            next(dekarino.judge(BOTH, b"\n1 FMS receive 1\n"))
        self.assertEqual(str(raised.exception), "log line 2 fault 10: no reply, column 16: the line ends; "
                                                "expected `->` and the reply")
        with self.assertRaises(dekarino.LogError) as raised:
            dekarino.judge(BOTH, b"\n1 FMS receive 1\n", own_ids=True)
        self.assertEqual(str(raised.exception), "log line 2 fault 10: no reply")
        with self.assertRaises(dekarino.ConfigError) as raised:
            dekarino.judge(b"nothing", b"")
        self.assertEqual((raised.exception.number, raised.exception.place), (1, "configuration"))


if __name__ == "__main__":
    unittest.main()
