"""The package 'dekarino': recorded logs, judged line by line as they are read."""
import pathlib
import tempfile
import tracemalloc
import unittest

import dekarino
from dekarino import Departure, Judge, Judgement, LogError, NoCallError, Row, judge

ROOT = pathlib.Path(__file__).resolve().parent.parent.parent
# A queuing channel NAV of depth 2 from FMS to DSP, and a sampling channel SPD from AIR to DSP; messages of 4 bytes.
BOTH = ROOT / "examples/every_reply/config.toml"
PORTS = (b"0 FMS create-queuing NAV_OUT 4 2 0 0 -> NO_ERROR id 1\n"
         b"0 DSP create-queuing NAV_IN 4 2 1 0 -> NO_ERROR id 1\n")
AGREES = PORTS + (b"# what comes in the order in which it was sent\n\n"
                  b"1 FMS send 1 0a -> NO_ERROR\r\n"
                  b"2 DSP receive 1 -> NO_ERROR message 0a (at once)\n"
                  b"3 DSP receive 1 timeout 5000000 -> TIMED_OUT\n"
                  b"after the calls there are words\n")
DEPARTS = PORTS + (b"1 FMS send 9 0a -> NO_ERROR\n"
                   b"2 DSP receive 001 -> NO_ERROR message 0A0b\n"
                   b"3 DSP receive 1 timeout infinite -> TIMED_OUT (never)")
DEPARTURES = (
    Departure(3, 1, "FMS", "send", "NO_ERROR", "INVALID_PARAM", Row.NO_SUCH_PORT,
              "no queuing port of identifier 9 is created"),
    Departure(4, 2, "DSP", "receive", "NO_ERROR message 0a0b", "NOT_AVAILABLE", Row.QUEUE_EMPTY,
              "no message waits on NAV"),
    Departure(5, 3, "DSP", "receive", "TIMED_OUT", "the call would still wait", Row.QUEUE_EMPTY,
              "no message waits on NAV"))


class Logs(unittest.TestCase):
    def test_a_log_in_each_form(self):
        with tempfile.TemporaryDirectory() as folder:
            path = pathlib.Path(folder) / "log.txt"
            for log, calls, departures in ((AGREES, 5, ()), (DEPARTS, 5, DEPARTURES)):
                path.write_bytes(log)
                lines = log.splitlines(keepends=True)
                with open(path, "rb") as bytes_file, open(path, encoding="ascii") as text_file:
                    for given in (log, bytearray(log), memoryview(log), path, str(path), lines, iter(lines), bytes_file,
                                  text_file, log.decode().splitlines()):
                        self.assertEqual(judge(BOTH, given), Judgement(calls, departures))
        self.assertEqual(judge(BOTH, b""), Judgement(0, ()))

    def test_departures_as_they_are_read(self):
        read = []

        def lines():
            for line in DEPARTS.splitlines():
                read.append(line)
                yield line

        judged = judge(BOTH, lines())
        self.assertEqual(read, [])
        self.assertEqual(next(judged), DEPARTURES[0])
        self.assertEqual(len(read), 3)
        self.assertEqual((judged.departures, judged.calls), (DEPARTURES[1:], 5))
        self.assertEqual(list(judged), list(DEPARTURES[1:]))

    def test_nothing_is_read_behind_the_end_of_the_calls(self):
        lines = iter([*AGREES.splitlines(), b"no line", b"nor this"])
        self.assertEqual(list(judge(BOTH, lines)), [])
        self.assertEqual(list(lines), [b"no line", b"nor this"])

    def fault(self, log):
        """What is said of a faulty line, after a departure."""
        judged = judge(BOTH, PORTS + b"1 FMS send 9 0a -> NO_ERROR\n" + log + b"\n1 FMS send 9 0a -> NO_ERROR\n")
        self.assertEqual(next(judged), DEPARTURES[0])
        with self.assertRaises(LogError) as raised:
            next(judged)
        with self.assertRaises(LogError):
            judged.departures
        return raised.exception

    def test_faulty_lines(self):
        for log, number, words, column, found, expected in [
                (b"2 NAV send 1 0a -> NO_ERROR", 5, "partition", 3, '"NAV"',
                 "the name of a partition: FMS, DSP, AIR"),
                (b"2 DSP receive 1", 10, "no reply", 16, "the line ends", "`->` and the reply"),
                (b"2 DSP receive -> NOT_AVAILABLE", 2, "too few words", 15, "the call ends",
                 "the identifier of a port, a whole number"),
                (b"2 FMS send 1 0a -> NO_ERROR ok", 12, "unknown reply", 29, '"ok"',
                 "the end of the line; put a note in brackets"),
                (b"#" * 65537, 13, "line too long", 65537, "more than 65536 bytes", "the end of the line")]:
            error = self.fault(log)
            self.assertEqual((error.line, error.number, error.words, error.column, error.found, error.expected),
                             (4, number, words, column, found, expected))
            self.assertEqual(str(error), f"log line 4 fault {number}: {words}, column {column}: {found}; expected {expected}")
        self.assertEqual(list(judge(BOTH, b"#" * 65536)), [])

    def test_lines_of_other_forms(self):
        for lines, column in ([["0 FMS mode 3 -> NO_ERROR\n1 FMS mode 3 -> NO_ACTION"], 25],
                              [["# a", "\u2192"], 1]):
            with self.assertRaises(LogError) as raised:
                list(judge(BOTH, lines))
            self.assertEqual((raised.exception.line, raised.exception.column), (len(lines), column))
        with self.assertRaisesRegex(TypeError, "a line is str, bytes, bytearray or memoryview, and not int"):
            list(judge(BOTH, [1]))
        with self.assertRaisesRegex(TypeError, "with own_ids, a log is the path of a file"):
            judge(BOTH, [b""], own_ids=True)

    def test_time_outs(self):
        log = PORTS + b"1 DSP receive 1 -> TIMED_OUT\n2 DSP receive 1 timeout 0 -> NOT_AVAILABLE\n"
        self.assertEqual(judge(BOTH, log, time_outs=True), Judgement(4, ()))
        self.assertEqual([(it.line, it.expected) for it in judge(BOTH, log)], [(3, "NOT_AVAILABLE")])

    def test_lines_between_calls(self):
        with Judge(BOTH) as judging:
            self.assertIsNone(judging.add_line("0 FMS create-queuing NAV_OUT 4 2 0 0 -> NO_ERROR id 1"))
            self.assertIsNone(judging.add("FMS", "SEND_QUEUING_MESSAGE", dekarino.Code.NO_ERROR, id=1, message=b"\x0a"))
            with self.assertRaises(LogError):
                judging.add_line(b"1 FMS send 1 0a")
            self.assertIsNone(judging.add_line("1 FMS queuing-status 1 -> "
                                               "NO_ERROR waiting 1 depth 2 size 4 SOURCE processes 0\n"))
            self.assertEqual((judging.calls, judging.lines), (3, 3))
            self.assertFalse(judging.has_ended)
            self.assertIsNone(judging.add_line("after this"))
            self.assertTrue(judging.has_ended)
        with self.assertRaisesRegex(NoCallError, "closed"):
            judging.add_line("# closed")

    def test_a_long_log_in_constant_memory(self):
        def lines():
            yield from PORTS.splitlines()
            for number in range(50_000):
                yield b"%d FMS send 1 0a -> NO_ERROR (%0200d)" % (number, number)
                yield b"%d DSP receive 1 -> NO_ERROR message 0a (%0200d)" % (number, number)

        judged = judge(BOTH, lines())
        tracemalloc.start()
        self.addCleanup(tracemalloc.stop)
        self.assertEqual(list(judged), [])
        self.assertEqual(judged.calls, 100_002)
        self.assertLess(tracemalloc.get_traced_memory()[1], 1_000_000)


if __name__ == "__main__":
    unittest.main()
