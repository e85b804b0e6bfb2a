"""The lock that is held during each call of any module, and the actions that wait for a call to end."""
import os
import threading
from collections import deque
from typing import Callable, Deque

from ._errors import NoCallError

# There is one lock for all modules, so that a process that forks can hold it: then no call is half done in the child. A
# thread that holds it gets it again at once, so a fork from within a call doesn't wait for itself.
lock = threading.RLock()
# Whether this thread holds the lock: then a signal handler or the garbage collector runs this during a call.
is_held: Callable[[], bool] = getattr(lock, "_is_owned")
# The actions that were asked for during a call, to be done when it ends.
later: Deque[Callable[[], None]] = deque()

if hasattr(os, "register_at_fork"):
    os.register_at_fork(before=lock.acquire, after_in_parent=lock.release, after_in_child=lock.release)


def refuse_within_a_call() -> None:
    """Raises NoCallError if this thread is already within a call, since it would wait for itself."""
    if is_held():
        raise NoCallError("this thread is within a call: a signal handler or a __del__ that interrupts it can't call")


def end_call() -> None:
    """Ends a call of this thread, and does the actions that wait for its end."""
    if is_held():  # before Python 3.10 an interrupt may come between a `with` and the release of its lock
        lock.release()
    while later:
        try:
            act = later.popleft()
        except IndexError:  # another thread took it
            return
        act()
