"""The package 'dekarino': what a module keeps of its calls, what an interrupt leaves, the report after the end, moments
of single calls, and calls for whole lists."""
import dis
import pathlib
import random
import sys
import threading
import tracemalloc
import unittest

import dekarino
from dekarino import Code, Mode, Module, NoCallError, Row

ROOT = pathlib.Path(__file__).resolve().parent.parent.parent
CONFIG = ROOT / "examples/every_reply/config.toml"
# The calls of each service on the module of the configuration, with their lines in a trace.
SERVICES = [
    (lambda at: at.fms.create_queuing_port("NAV_OUT", size=4, depth=2, direction=0),
     "FMS create-queuing NAV_OUT 4 2 0 0"),
    (lambda at: at.dsp.create_sampling_port("SPD_IN", size=4, direction=1, refresh=50),
     "DSP create-sampling SPD_IN 4 1 50"),
    (lambda at: at.nav.receive(), "DSP receive 1"), (lambda at: at.out.send(b"12345"), "FMS send 1 3132333435"),
    (lambda at: at.out.send(b"\x01\x02"), "FMS send 1 0102"), (lambda at: at.nav.status(), "DSP queuing-status 1"),
    (lambda at: at.nav.receive(), "DSP receive 1"), (lambda at: at.nav.clear(), "DSP clear 1"),
    (lambda at: at.spd_out.write(b"\x07"), "AIR write 1 07"), (lambda at: at.spd.read(), "DSP read 2"),
    (lambda at: at.spd.status(), "DSP sampling-status 2"),
    (lambda at: at.fms.get_queuing_port_id("NAV_OUT"), "FMS queuing-id NAV_OUT"),
    (lambda at: at.dsp.get_sampling_port_id("SPD_IN"), "DSP sampling-id SPD_IN"),
    (lambda at: at.fms.set_mode(Mode.NORMAL), "FMS mode 3"),
    (lambda at: at.out.send_many([b"1", b"2", b"3"]), "FMS send 1 31\n0 FMS send 1 32\n0 FMS send 1 33"),
    (lambda at: at.nav.receive_many(3), "DSP receive 1\n0 DSP receive 1\n0 DSP receive 1"),
]
CREATED = """0 DSP create-queuing NAV_IN 4 2 1 0
0 AIR create-sampling SPD_OUT 4 0 50
"""


class Bench:
    """The module, with the two ports that every trace here creates first."""

    def __init__(self, **how):
        self.module = Module.open(CONFIG, **how)
        self.fms, self.dsp, self.air = map(self.module.partition, ["FMS", "DSP", "AIR"])
        self.nav = self.dsp.create_queuing_port("NAV_IN", size=4, depth=2, direction=1)
        self.spd_out = self.air.create_sampling_port("SPD_OUT", size=4, direction=0, refresh=50)
        self.out, self.spd = self.fms.queuing_port(1), self.dsp.sampling_port(2)

    def calls(self):
        return sum(it.calls for it in (self.fms, self.dsp, self.air))


class Interrupt(Exception):
    pass


def interrupt(number, act):
    """Acts, and raises Interrupt where the package's number-th call of a function returns, from 1: there a signal's
    handler is run. Whether there is such a call."""
    count, before = 0, {}

    def trace(frame, event, argument):
        nonlocal count
        if "dekarino/" not in frame.f_code.co_filename:
            return None
        frame.f_trace_opcodes = True
        if event == "opcode":
            if before.get(frame, "").startswith("CALL"):
                count += 1
                if count == number:
                    raise Interrupt
            before[frame] = dis.opname[frame.f_code.co_code[frame.f_lasti]]
        return trace

    sys.settrace(trace)
    try:
        act()
    except Interrupt:
        return True
    finally:
        sys.settrace(None)
    return False


class Interrupts(unittest.TestCase):
    def test_no_call_is_lost(self):
        """The report has each call that was made, and is the program's of these calls and of one after them."""
        done, met, after = CREATED, set(), "0 FMS mode 4\n"
        for place, (call, line) in enumerate(SERVICES):
            lines = f"0 {line}\n".splitlines(True)
            wanted = {0: self.replayed(done + after), len(lines): self.replayed(done + "".join(lines) + after)}
            number, is_there = 1, True
            while is_there:
                bench = Bench()
                for earlier, _ in SERVICES[:place]:
                    earlier(bench)
                before = bench.calls()
                is_there = interrupt(number, lambda: call(bench))
                bench.fms.set_mode(4)
                made = bench.calls() - before - 1
                met.add((is_there, made > 0))
                self.assertEqual(bench.module.report(), wanted.get(made), f"{line}, at {number}")
                number += 1
            done += "".join(lines)
        self.assertEqual(met, {(True, False), (True, True), (False, True)})

    def replayed(self, trace):
        return dekarino.replay(CONFIG, trace.encode()).text


class Memory(unittest.TestCase):
    def bytes_of_each(self, act, count=2_000, **how):
        bench = Bench(**how)
        for call, _ in SERVICES[:2]:
            call(bench)
        bench.spd_out.write(bytes(4))
        call = act(bench)
        tracemalloc.start()
        self.addCleanup(tracemalloc.stop)
        for _ in range(100):
            call()
        before = tracemalloc.get_traced_memory()[0]
        for _ in range(count):
            call()
        spent = (tracemalloc.get_traced_memory()[0] - before) / count
        tracemalloc.stop()
        return spent

    # Each call, by its port or partition.
    CALLS = [lambda at: lambda: at.out.send(b"1234"), lambda at: at.nav.receive, lambda at: at.nav.status,
             lambda at: at.nav.clear, lambda at: lambda: at.spd_out.write(b"1234"), lambda at: at.spd.read,
             lambda at: at.spd.status, lambda at: lambda: at.fms.set_mode(4),
             lambda at: lambda: at.fms.get_queuing_port_id("NAV_OUT"),
             lambda at: lambda: at.out.send_many([b"1234"]), lambda at: lambda: at.nav.receive_many(1)]

    def test_at_most_64_bytes_and_the_message(self):
        for act in self.CALLS:
            self.assertLessEqual(self.bytes_of_each(act), 64)

    def test_nothing_where_no_call_is_kept(self):
        for act in self.CALLS:
            self.assertLess(self.bytes_of_each(act, keep_calls=False), 1)


class Reports(unittest.TestCase):
    def test_after_the_end(self):
        bench = Bench()
        with bench.module as module:
            bench.fms.set_mode(Mode.NORMAL).check()
            report = module.report()
        self.assertIn("3 0 FMS mode NO_ERROR\n", report)
        self.assertEqual(module.report(), report)
        module.close()
        self.assertEqual(module.report(), report)

    def test_none_where_no_call_is_kept(self):
        bench = Bench(keep_calls=False)
        self.assertEqual(bench.calls(), 2)
        with self.assertRaisesRegex(NoCallError, "^the module keeps no calls"):
            bench.module.report()
        self.assertIs(bench.nav.receive().row, Row.QUEUE_EMPTY)

    def test_last_calls(self):
        bench = Bench()
        SERVICES[0][0](bench)
        bench.out.send(b"\x0a\x0b", at=30).check()
        bench.out.send(b"12345", at=40)
        self.assertEqual(bench.module.last_calls, (
            "0 DSP create-queuing NAV_IN 4 2 1 0 -> NO_ERROR id 1",
            "0 AIR create-sampling SPD_OUT 4 0 50 -> NO_ERROR id 1",
            "0 FMS create-queuing NAV_OUT 4 2 0 0 -> NO_ERROR id 1",
            "30 FMS send 1 0a0b -> NO_ERROR",
            "40 FMS send 1 3132333435 -> INVALID_CONFIG (message of 5 bytes, channel NAV takes 4)"))
        for _ in range(30):
            bench.nav.receive()
        self.assertEqual(bench.module.last_calls,
                         ("0 DSP receive 1 -> NOT_AVAILABLE (no message waits on NAV)",) * 20)


class Moments(unittest.TestCase):
    def test_a_moment_of_one_call(self):
        bench = Bench()
        bench.module.at(7)
        bench.spd_out.write(b"1", at=9).check()
        self.assertEqual(bench.module.channel("SPD").sample, (b"1", 9))
        bench.spd_out.write(b"2").check()
        self.assertEqual(bench.module.channel("SPD").sample, (b"2", 7))
        before = bench.module.report()
        for wrong in (-1, 2**63):
            self.assertRaises(NoCallError, lambda: bench.spd_out.write(b"3", at=wrong))
            self.assertRaises(NoCallError, lambda: bench.nav.receive_many(1, at=wrong))
        self.assertEqual(bench.module.report(), before)

    def test_each_call_takes_it(self):
        bench = Bench()
        bench.fms.create_queuing_port("NAV_OUT", size=4, depth=2, direction=0, at=101)
        bench.dsp.create_sampling_port("SPD_IN", size=4, direction=1, refresh=50, at=102)
        bench.out.send(b"1", at=103)
        bench.out.send_many([b"2"], at=104)
        bench.nav.receive(at=105)
        bench.nav.receive_many(1, at=106)
        bench.nav.status(at=107)
        bench.nav.clear(at=108)
        bench.spd_out.write(b"3", at=109)
        bench.spd_out.write_many([b"4"], at=110)
        bench.spd.read(at=111)
        bench.spd.status(at=112)
        bench.fms.get_queuing_port_id("NAV_OUT", at=113)
        bench.dsp.get_sampling_port_id("SPD_IN", at=114)
        bench.fms.set_mode(3, at=115)
        lines = bench.module.report().splitlines()[2:17]
        self.assertEqual([int(line.split()[1]) for line in lines], list(range(101, 116)))

    def test_two_threads(self):
        """Each thread says when it calls, and the other changes nothing of it."""
        bench = Bench(keep_calls=True)

        def call(partition, moment):
            for _ in range(300):
                partition.set_mode(4, at=moment)

        threads = [threading.Thread(target=call, args=it) for it in ((bench.fms, 5), (bench.dsp, 6))]
        for it in threads:
            it.start()
        for it in threads:
            it.join()
        said = [line.split()[1:3] for line in bench.module.report().splitlines() if " mode INVALID_PARAM" in line]
        self.assertEqual(sorted(said), [["5", "FMS"]] * 300 + [["6", "DSP"]] * 300)


class Lists(unittest.TestCase):
    def test_replies_and_rows(self):
        """The replies are those of single calls: the rows, the words and the reports too."""
        chance = random.Random(56)
        for _ in range(40):
            messages = [bytes(chance.choice((0, 1, 2, 3, 4, 5, 1025))) for _ in range(chance.randint(0, 130))]
            counts = [chance.randint(0, 130) for _ in range(2)]
            both = []
            for single in (True, False):
                bench = Bench()
                SERVICES[0][0](bench)
                nav, out, spd = bench.nav, bench.out, bench.spd_out
                some = [
                    [out.send(it) for it in messages] if single else out.send_many(messages),
                    [nav.receive() for _ in range(counts[0])] if single else nav.receive_many(counts[0]),
                    [spd.write(it) for it in messages] if single else spd.write_many(messages),
                    [out.receive() for _ in range(counts[1])] if single else out.receive_many(counts[1]),
                ]
                both.append((some, bench.module.report(), bench.module.last_calls))
            self.assertEqual(*both)

    def test_what_is_no_call(self):
        bench = Bench()
        before = bench.module.report()
        self.assertRaises(NoCallError, bench.nav.receive_many, -1)
        self.assertRaisesRegex(TypeError, "^a message is .* and not str$", bench.out.send_many, [b"1", "2"])
        self.assertRaisesRegex(TypeError, "^a message is .* and not int$", bench.out.send_many, b"12")
        self.assertEqual(bench.module.report(), before)
        bench.module.close()
        self.assertRaisesRegex(NoCallError, "^the module is closed$", bench.out.send_many, [b"1"])

    def test_in_idle(self):
        bench = Bench()
        bench.dsp.set_mode(Mode.IDLE).check()
        self.assertEqual([it.code for it in bench.nav.receive_many(2)], [Code.NOT_MADE] * 2)


if __name__ == "__main__":
    unittest.main()
