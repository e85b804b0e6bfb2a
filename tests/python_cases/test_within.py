"""The package 'dekarino': what interrupts a call, from a signal handler or by the collector, and a fork from there.
What would wait for itself is run in a process of its own, which has a minute. A trace function acts for what
interrupts: before lines of the package that a call runs, before it holds the lock, while it does, and after that."""
import os
import pathlib
import subprocess
import sys
import textwrap
import unittest

ROOT = pathlib.Path(__file__).resolve().parent.parent.parent
START = f"""
import gc, os, signal, sys
from dekarino import Module, NoCallError
config = {str(ROOT / "examples/every_reply/config.toml")!r}


def opened():
    module = Module.open(config)
    out = module.partition("FMS").create_queuing_port("NAV_OUT", size=4, depth=2, direction=0)
    return module, out, module.partition("DSP").create_queuing_port("NAV_IN", size=4, depth=2, direction=1)


def interrupted(call, act, wanted=None):
    '''Makes the call, and acts before each line of the package, or before the one of the number. How many there were.
    A port's first call of a kind has more lines.'''
    count = 0

    def trace(frame, event, argument):
        nonlocal count
        if "dekarino" not in frame.f_code.co_filename:
            return None
        if event == "line":
            count += 1
            if wanted in (None, count):
                sys.settrace(None)
                act()
                sys.settrace(trace)
        return trace

    sys.settrace(trace)
    try:
        call()
    finally:
        sys.settrace(None)
    return count


module, out, nav = opened()
"""


class Within(unittest.TestCase):
    def run_script(self, script):
        environment = {**os.environ, "PYTHONPATH": str(ROOT / "python"), "PYTHONDONTWRITEBYTECODE": "1"}
        try:
            ran = subprocess.run([sys.executable, "-c", START + textwrap.dedent(script)], env=environment, timeout=60,
                                 stdin=subprocess.DEVNULL, stdout=subprocess.PIPE, stderr=subprocess.STDOUT, text=True)
        except subprocess.TimeoutExpired:
            self.fail("it waits for itself")
        self.assertEqual((ran.returncode, ran.stdout), (0, "done\n"))

    def test_a_call_in_a_signal_handler(self):
        self.run_script("""
            met = []


            def act(*_):
                try:
                    nav.status().check()
                except NoCallError as error:
                    assert str(error).startswith("this thread is within a call"), error
                    met.append(1)
                signal.setitimer(signal.ITIMER_REAL, 0.0005)


            signal.signal(signal.SIGALRM, act)
            signal.setitimer(signal.ITIMER_REAL, 0.0005)
            while len(met) < 10:
                nav.receive()
            signal.signal(signal.SIGALRM, signal.SIG_IGN)
            assert module.report().count(" DSP ") == module.partition("DSP").calls + 1
            print("done")
            """)

    def test_a_call_within_a_call(self):
        self.run_script("""
            refused, served, replies = [], [], []


            def act():
                try:
                    served.append(nav.status().check())
                except NoCallError as error:
                    refused.append(error)


            interrupted(lambda: replies.append(out.send(b"1")), act)
            replies[0].check()
            assert refused and served, (refused, served)
            assert served[0].waiting == 0 and served[-1].waiting == 1, served
            assert module.partition("DSP").calls == 1 + len(served)
            print("done")
            """)

    def test_a_close_within_a_call(self):
        self.run_script("""
            count, ends = interrupted(lambda: out.send(b"1"), lambda: None), set()
            for wanted in range(1, count + 1):
                module, out, nav = opened()
                try:
                    interrupted(lambda: out.send(b"1").check(), module.close, wanted)
                    ends.add("made")
                except NoCallError as error:
                    assert str(error) == "the module is closed", error
                    ends.add("closed")
                assert module.closed
                calls = module.report().count(" send NO_ERROR")
                assert f"queuing NAV accepted {calls} received 0 waiting {calls}" in module.report(), module.report()
            assert ends == {"made", "closed"}, ends
            print("done")
            """)

    def test_a_close_by_the_collector(self):
        self.run_script("""
            class Bench:
                def __init__(self):
                    self.module, self.me = Module.open(config), self
                    kept.append(self.module)

                def __del__(self):
                    self.module.close()


            def act():
                gc.collect()


            kept = []
            gc.disable()
            out.status()
            count = interrupted(lambda: out.status(), lambda: None)
            for wanted in range(1, count + 1):
                Bench()
                interrupted(lambda: out.status().check(), act, wanted)
                assert kept.pop().closed
            print("done")
            """)

    def test_a_fork_within_a_call(self):
        """A call is refused in the child as in the parent, until the one in hand ends."""
        self.run_script("""
            def act():
                child = os.fork()
                if child == 0:
                    try:
                        nav.status().check()
                    except NoCallError:
                        os._exit(7)
                    os._exit(0)
                ends.add(os.waitstatus_to_exitcode(os.waitpid(child, 0)[1]))


            ends = set()
            interrupted(lambda: nav.receive(), act)
            assert ends == {0, 7}, ends
            print("done")
            """)

    def test_a_child_that_goes_on_within_a_call(self):
        """The call that the fork interrupted ends in the child too, and then others are served."""
        self.run_script("""
            def act():
                global child
                child = os.fork()


            nav.receive()
            count = interrupted(lambda: nav.receive(), lambda: None)
            for wanted in range(1, count + 1):
                before = module.partition("DSP").calls
                interrupted(lambda: nav.receive(), act, wanted)
                nav.status().check()
                is_right = module.partition("DSP").calls == before + 2
                if child == 0:
                    os._exit(0 if is_right else 1)
                assert is_right and os.waitpid(child, 0)[1] == 0
            print("done")
            """)


if __name__ == "__main__":
    unittest.main()
