"""The plugin for pytest: a fixture opens modules, and a failed test shows their last calls with their words."""
import importlib
from typing import Any, Callable, Iterator

from ._module import Module
from ._texts import Text

# (its types are missing if the package is checked without pytest)
_pytest: Any = importlib.import_module("pytest")
# The modules that a test opened.
_OPENED = _pytest.StashKey()


def _open_module(request: Any) -> Iterator[Callable[..., Module]]:
    """Opens the module of a configuration, as `Module.open` does; it is closed when the test ends."""
    opened = request.node.stash.setdefault(_OPENED, [])

    def open_one(config: Text, *, keep_calls: bool = True) -> Module:
        module = Module.open(config, keep_calls=keep_calls)
        opened.append(module)
        return module

    yield open_one
    for module in opened:
        module.close()


def _add_last_calls(item: Any, call: Any) -> Iterator[None]:
    """Adds the last calls to the report of a test that failed."""
    outcome: Any = yield
    report = outcome.get_result()
    if report.when == "call" and report.failed:
        for module in item.stash.get(_OPENED, []):
            report.sections.append((f"last calls of {module!r}", "\n".join(module.last_calls) or "none"))


open_module = _pytest.fixture(name="open_module")(_open_module)
pytest_runtest_makereport = _pytest.hookimpl(hookwrapper=True)(_add_last_calls)
