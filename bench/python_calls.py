#!/usr/bin/env python3
"""python_calls.py [CALLS]: sends and receives messages of 4 bytes in turn by the Python package, one by one and in lists
of 50, and prints how many seconds 100,000 calls take, the median of seven runs. At most 1 is the limit of the first.
python/build makes what it needs."""
import pathlib
import statistics
import sys
import time

sys.path.insert(0, str(pathlib.Path(__file__).resolve().parent.parent / "python"))
from dekarino import Module  # noqa: E402

CONFIG = b"""
partition = [
    { name = "FMS", port = [{ name = "NAV_OUT", kind = "queuing", direction = "source", channel = "NAV" }] },
    { name = "DSP", port = [{ name = "NAV_IN", kind = "queuing", direction = "destination", channel = "NAV" }] },
]
channel = [{ name = "NAV", kind = "queuing", size = 1024, depth = 64 }]
"""


def one_by_one(out, nav, calls):
    for _ in range(calls // 2):
        out.send(b"1234")
        nav.receive()


def in_lists(out, nav, calls):
    for _ in range(calls // 100):
        out.send_many([b"1234"] * 50)
        nav.receive_many(50)


def seconds(make, calls):
    """How long a module of its own takes for the calls."""
    with Module.open(CONFIG) as module:
        out = module.partition("FMS").create_queuing_port("NAV_OUT", size=1024, depth=64, direction=0)
        nav = module.partition("DSP").create_queuing_port("NAV_IN", size=1024, depth=64, direction=1)
        start = time.perf_counter()
        make(out, nav, calls)
        spent = time.perf_counter() - start
        if module.channel("NAV").received != calls // 2:
            sys.exit("not every message came")
    return spent


def main():
    calls = int(sys.argv[1]) if sys.argv[1:] else 100_000
    for make, how in ((one_by_one, "one by one"), (in_lists, "in lists")):
        spent = statistics.median(seconds(make, calls) for _ in range(7))
        print(f"{spent * 100_000 / calls:.2f} seconds for 100,000 calls {how}")


if __name__ == "__main__":
    main()
