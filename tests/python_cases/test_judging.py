"""The package 'dekarino': calls of another layer, judged as they are made."""
import pathlib
import unittest

import dekarino
from dekarino import (Code, ConfigError, Direction, Judge, NoCallError, QueuingStatus, Row, Sample, SamplingStatus,
                      Validity)

ROOT = pathlib.Path(__file__).resolve().parent.parent.parent
# A queuing channel NAV of depth 2 from FMS to DSP, and a sampling channel SPD from AIR to DSP; messages of 4 bytes.
BOTH = ROOT / "examples/every_reply/config.toml"


class Judging(unittest.TestCase):
    def setUp(self):
        self.judge = Judge(BOTH)
        self.addCleanup(self.judge.close)

    def agrees(self, *reply, **call):
        self.assertIsNone(self.judge.add(*reply, **call))

    def creates_all(self):
        queuing, sampling = {"size": 4, "depth": 2, "discipline": 0}, {"size": 4, "refresh": 50}
        self.agrees("FMS", "CREATE_QUEUING_PORT", Code.NO_ERROR, 1, name="NAV_OUT", direction=0, **queuing)
        self.agrees("DSP", "CREATE_QUEUING_PORT", Code.NO_ERROR, 1, name="NAV_IN", direction=1, **queuing)
        self.agrees("DSP", "CREATE_SAMPLING_PORT", Code.NO_ERROR, 2, name="SPD_IN", direction=1, **sampling)
        self.agrees("AIR", "CREATE_SAMPLING_PORT", Code.NO_ERROR, 1, name="SPD_OUT", direction=0, **sampling)

    def test_a_system_as_the_standard_says(self):
        self.creates_all()
        self.agrees("FMS", "GET_QUEUING_PORT_ID", Code.NO_ERROR, 1, name="NAV_OUT")
        self.agrees("FMS", "SET_PARTITION_MODE", Code.NO_ERROR, mode=3)
        self.agrees("FMS", "SET_PARTITION_MODE", Code.NO_ACTION, mode=dekarino.Mode.NORMAL)
        self.agrees("DSP", "RECEIVE_QUEUING_MESSAGE", Code.NOT_AVAILABLE, id=1)
        self.agrees("FMS", "SEND_QUEUING_MESSAGE", Code.NO_ERROR, id=1, message=b"\x0a")
        self.agrees("FMS", "GET_QUEUING_PORT_STATUS", Code.NO_ERROR, QueuingStatus(1, 2, 4, Direction.SOURCE), id=1)
        self.agrees("DSP", "RECEIVE_QUEUING_MESSAGE", Code.NO_ERROR, b"\x0a", id=1)
        self.agrees("AIR", "WRITE_SAMPLING_MESSAGE", Code.NO_ERROR, id=1, message=b"12", at=100)
        self.agrees("DSP", "READ_SAMPLING_MESSAGE", Code.NO_ERROR, Sample(b"12", Validity.VALID), id=2, at=150)
        self.agrees("DSP", "READ_SAMPLING_MESSAGE", Code.NO_ERROR, Sample(b"12", Validity.INVALID), id=2, at=151)
        self.agrees("DSP", "GET_SAMPLING_PORT_STATUS", Code.NO_ERROR,
                    SamplingStatus(50, 4, Direction.DESTINATION, Validity.INVALID), id=2)
        self.agrees("DSP", "CLEAR_QUEUING_PORT", Code.NO_ERROR, id=1)
        self.agrees("FMS", "SET_PARTITION_MODE", Code.NO_ERROR, mode=0)
        self.agrees("FMS", "SEND_QUEUING_MESSAGE", Code.NOT_MADE, id=1, message=b"1")
        self.assertEqual(self.judge.calls, 18)

    def departs(self, expected, row, words, *reply, **call):
        found = self.judge.add(*reply, **call)
        self.assertEqual((found.expected, found.row, found.words), (expected, row, words))
        return found

    def test_departures(self):
        self.creates_all()
        found = self.departs("INVALID_PARAM", Row.NO_SUCH_PORT, "no queuing port of identifier 9 is created",
                             "FMS", "SEND_QUEUING_MESSAGE", Code.NO_ERROR, id=9, message=b"\x0a", at=7)
        self.assertEqual((found.line, found.at, found.partition, found.call, found.logged),
                         (5, 7, "FMS", "send", "NO_ERROR"))
        self.agrees("FMS", "SEND_QUEUING_MESSAGE", Code.NO_ERROR, id=1, message=b"\x0a")
        self.departs("NO_ERROR waiting 1 depth 2 size 4 DESTINATION processes 0", Row.QUEUING_STATUS, "", "DSP",
                     "GET_QUEUING_PORT_STATUS", Code.NO_ERROR, QueuingStatus(2, 2, 4, Direction.DESTINATION), id=1)
        found = self.departs("NO_ERROR message 0a", Row.RECEIVED, "", "DSP", "RECEIVE_QUEUING_MESSAGE",
                             Code.NO_ERROR, b"\x0b", id=1)
        self.assertEqual(found.logged, "NO_ERROR message 0b")
        self.departs("INVALID_PARAM", Row.EMPTY_MESSAGE, "message of 0 bytes", "AIR", "WRITE_SAMPLING_MESSAGE",
                     Code.NO_ERROR, id=1, message=b"")

    def test_no_calls(self):
        for message, arguments in [
                ("no partition NAV", ("NAV", "CLEAR_QUEUING_PORT", Code.NO_ERROR)),
                ("no service CLEAR", ("DSP", "CLEAR", Code.NO_ERROR)),
                ("takes id, and not nothing", ("DSP", "CLEAR_QUEUING_PORT", Code.NO_ERROR))]:
            with self.assertRaisesRegex(NoCallError, message):
                self.judge.add(*arguments)
        with self.assertRaisesRegex(NoCallError, "ASCII letters"):
            self.judge.add("FMS", "GET_QUEUING_PORT_ID", Code.NO_ERROR, 1, name="A B")
        with self.assertRaisesRegex(NoCallError, "1024 bytes"):
            self.judge.add("FMS", "SEND_QUEUING_MESSAGE", Code.NO_ERROR, id=1, message=bytes(1025))
        self.judge.close()
        with self.assertRaisesRegex(NoCallError, "closed"):
            self.judge.add("DSP", "CLEAR_QUEUING_PORT", Code.NO_ERROR, id=1)
        self.assertEqual(self.judge.calls, 0)

    def refuses(self, error, words, *call, **arguments):
        """The call is refused before it is judged, and not noted."""
        with self.assertRaisesRegex(error, words):
            self.judge.add(*call, **arguments)
        self.assertEqual(self.judge.calls, 0)

    def test_arguments_of_wrong_types(self):
        create = {"name": "NAV_OUT", "size": 4, "depth": 2, "direction": 0, "discipline": 0}
        for name, value, words in [
                ("name", 3, "a name is str or bytes, and not int"),
                ("name", bytearray(b"NAV_OUT"), "and not bytearray"),
                ("name", None, "and not NoneType"), ("size", "4", "'str' object"), ("size", b"4", "'bytes' object"),
                ("depth", 2.0, "'float' object"), ("direction", "SOURCE", "'str' object"),
                ("discipline", None, "'NoneType' object"),
                ("direction", True, "direction is a whole number, and not bool")]:
            self.refuses(TypeError, words, "FMS", "CREATE_QUEUING_PORT", Code.NO_ERROR, 1, **{**create, name: value})
        for name, value, words in [("size", 2**32, "size is 4294967296; it must be 0 to 4294967295"),
                                   ("depth", -1, "depth is -1; it must be 0 to 4294967295"),
                                   ("name", "N\u00c4V", "ASCII letters")]:
            self.refuses(NoCallError, words, "FMS", "CREATE_QUEUING_PORT", Code.NO_ERROR, 1, **{**create, name: value})
        for message, name in [(5, "int"), ("0a", "str"), (None, "NoneType"), ([10], "list")]:
            self.refuses(TypeError, f"a message is bytes, bytearray or memoryview, and not {name}",
                         "FMS", "SEND_QUEUING_MESSAGE", Code.NO_ERROR, id=1, message=message)
        for id in ("1", b"1", None, 1.0, True):
            self.refuses(TypeError, "", "DSP", "RECEIVE_QUEUING_MESSAGE", Code.NOT_AVAILABLE, id=id)
        self.refuses(TypeError, "'str' object", "FMS", "SET_PARTITION_MODE", Code.NO_ERROR, mode="NORMAL")
        self.refuses(TypeError, "the moment is a whole number", "FMS", "SET_PARTITION_MODE", Code.NO_ERROR, mode=3,
                     at=True)
        self.refuses(NoCallError, "refresh is 18446744073709551616; it must be 0 to 18446744073709551615", "AIR",
                     "CREATE_SAMPLING_PORT", Code.NO_ERROR, 1, name="SPD_OUT", size=4, direction=0, refresh=2**64)

    def test_arguments_of_other_types(self):
        self.agrees("FMS", "CREATE_QUEUING_PORT", Code.NO_ERROR, 1, name=b"NAV_OUT", size=4, depth=2,
                    direction=Direction.SOURCE, discipline=dekarino.Discipline.FIFO)
        self.agrees("FMS", "SEND_QUEUING_MESSAGE", Code.NO_ERROR, id=1, message=bytearray(b"\x0a"))
        self.agrees("FMS", "SEND_QUEUING_MESSAGE", 0, id=1, message=memoryview(b"\x0b"))
        self.agrees("FMS", "GET_QUEUING_PORT_STATUS", 0, QueuingStatus(2, 2, 4, 0), id=1)
        self.agrees("DSP", "RECEIVE_QUEUING_MESSAGE", 3, id=1)
        found = self.judge.add("FMS", "GET_QUEUING_PORT_STATUS", 0, QueuingStatus(1, 2, 4, 1), id=1)
        self.assertEqual(found.logged, "NO_ERROR waiting 1 depth 2 size 4 DESTINATION processes 0")
        self.assertEqual(self.judge.add("FMS", "SEND_QUEUING_MESSAGE", 6, id=1, message=b"\x0c").logged, "TIMED_OUT")

    def test_replies_of_wrong_types(self):
        receive, read = ("DSP", "RECEIVE_QUEUING_MESSAGE"), ("DSP", "READ_SAMPLING_MESSAGE")
        queuing, sampling = ("FMS", "GET_QUEUING_PORT_STATUS"), ("DSP", "GET_SAMPLING_PORT_STATUS")
        for call, code, value, words in [
                (receive, "NO_ERROR", b"", "'str' object"), (receive, None, None, "'NoneType' object"),
                (receive, True, None, "the code is a whole number, and not bool"),
                (read, Code.NO_ERROR, Sample("12", Validity.VALID), "a message is bytes, .*, and not str"),
                (read, Code.NO_ERROR, Sample(b"12", "VALID"), "'str' object"),
                (read, Code.NO_ERROR, Sample(b"12", True), "the validity is a whole number, and not bool"),
                (queuing, Code.NO_ERROR, QueuingStatus("1", 2, 4, Direction.SOURCE), "'str' object"),
                (queuing, Code.NO_ERROR, QueuingStatus(1, 2, 4, "SOURCE"), "'str' object"),
                (sampling, Code.NO_ERROR, SamplingStatus(50, None, Direction.SOURCE, Validity.VALID), "'NoneType'"),
                (sampling, Code.NO_ERROR, SamplingStatus(50, 4, Direction.SOURCE, None), "'NoneType' object")]:
            self.refuses(TypeError, words, *call, code, value, id=1)
        self.refuses(TypeError, "the identifier is a whole number, and not bool", "FMS", "GET_QUEUING_PORT_ID",
                     Code.NO_ERROR, True, name="NAV_OUT")

    def test_no_replies(self):
        receive, read = ("DSP", "RECEIVE_QUEUING_MESSAGE"), ("DSP", "READ_SAMPLING_MESSAGE")
        queuing, sampling = ("FMS", "GET_QUEUING_PORT_STATUS"), ("DSP", "GET_SAMPLING_PORT_STATUS")
        clear, ok = ("DSP", "CLEAR_QUEUING_PORT"), Code.NO_ERROR
        for call, code, value, words in [
                (receive, 8, None, "the code is 8, which is no Code"), (receive, -1, None, "the code is -1"),
                (receive, ok, None, "RECEIVE_QUEUING_MESSAGE gives a message with NO_ERROR, and not NoneType"),
                (receive, ok, 1, "gives a message"), (receive, ok, "0a", "gives a message .*, and not str"),
                (receive, ok, Sample(b"1", Validity.VALID), "gives a message with NO_ERROR, and not Sample"),
                (receive, ok, bytes(1025), "a message has more than 1024 bytes"),
                (receive, Code.NOT_AVAILABLE, b"1", "RECEIVE_QUEUING_MESSAGE gives no value with NOT_AVAILABLE"),
                (receive, Code.NOT_MADE, b"", "gives no value with NOT_MADE"),
                (read, ok, b"1", "gives a Sample"), (read, ok, None, "gives a Sample"),
                (read, ok, (b"1", Validity.VALID), "gives a Sample with NO_ERROR, and not tuple"),
                (read, ok, Sample(b"1", 2), "the validity is 2, which is no Validity"),
                (queuing, ok, None, "gives a QueuingStatus"), (queuing, ok, 1, "gives a QueuingStatus"),
                (queuing, ok, SamplingStatus(50, 4, Direction.SOURCE, Validity.VALID), "and not SamplingStatus"),
                (queuing, ok, QueuingStatus(1, 2, 4, 2), "the direction is 2, which is no Direction"),
                (queuing, ok, QueuingStatus(2**32, 2, 4, Direction.SOURCE), "waiting is 4294967296; it must be"),
                (queuing, ok, QueuingStatus(1, -1, 4, Direction.SOURCE), "depth is -1"),
                (sampling, ok, QueuingStatus(1, 2, 4, Direction.SOURCE), "gives a SamplingStatus"),
                (sampling, ok, SamplingStatus(2**64, 4, Direction.SOURCE, Validity.VALID), "refresh is 184467440737"),
                (sampling, ok, SamplingStatus(50, 4, Direction.SOURCE, 7), "the last validity is 7"),
                (clear, ok, 1, "CLEAR_QUEUING_PORT gives no value with NO_ERROR, and not int"),
                (clear, ok, b"", "gives no value"), (clear, Code.INVALID_MODE, 1, "gives no value with INVALID_MODE")]:
            self.refuses(NoCallError, words, *call, code, value, id=1)
        for value in (None, "1", b"1", 2.0):
            self.refuses(NoCallError, "GET_QUEUING_PORT_ID gives an identifier with NO_ERROR", "FMS",
                         "GET_QUEUING_PORT_ID", ok, value, name="NAV_OUT")
        self.refuses(NoCallError, "the identifier is -1", "FMS", "GET_QUEUING_PORT_ID", ok, -1, name="NAV_OUT")
        self.refuses(NoCallError, "gives no value", "FMS", "SET_PARTITION_MODE", ok, 3, mode=3)

    def test_a_call_in_idle(self):
        self.creates_all()
        self.agrees("FMS", "SET_PARTITION_MODE", Code.NO_ERROR, mode=0)
        found = self.departs("not made", Row.IN_IDLE, "partition is in IDLE", "FMS", "SEND_QUEUING_MESSAGE",
                             Code.NO_ERROR, id=1, message=b"\x0a")
        self.assertEqual((found.line, found.logged), (6, "NO_ERROR"))

    def test_no_configuration(self):
        with self.assertRaisesRegex(ConfigError, "config fault 2: shape"):
            Judge(b"")


if __name__ == "__main__":
    unittest.main()
