"""`python3 -m dekarino`: a page of a module and its calls, as a file or live."""
import argparse
import datetime
import os
import pathlib
import sys
from typing import List, Optional

from ._errors import LibraryError
from ._gathering import Programs, Source, Facts, Undecided, gather
from ._page import page
from ._serving import serve

# The maximum number of states that `orders` searches.
STATES = 20_000


class _Failed(Exception):
    """A text for standard error, and the status."""

    def __init__(self, said: str, status: int) -> None:
        super().__init__(said)
        self.status = status


def _read(path: str) -> Source:
    try:
        return Source(path, pathlib.Path(path).read_bytes())
    except OSError as error:
        raise _Failed(f"cannot read {path}: {error.strerror}", 3) from None


def _refusal(source: str, facts: Facts) -> List[str]:
    """A line for each mistake of a text."""
    places = [(":".join(str(it) for it in (source, mistake["line"], mistake["column"]) if it is not None), mistake["words"])
              for mistake in facts["mistakes"]]
    return [f"{place}: {words}" for place, words in places] + [facts["said"]]


def _view(options: argparse.Namespace) -> None:
    """Writes the page of a configuration and a trace or a log."""
    config = _read(options.config)
    runs = [_read(options.trace), *([_read(options.orders)] if options.orders else [])]
    programs = Programs()
    facts = gather(programs, config, runs, STATES)
    for name, each in [(options.config, facts["config"]), *((run["name"], run) for run in facts["runs"])]:
        if each["mistakes"] or (each["said"] and not each.get("is_whole")):
            raise _Failed("\n".join(_refusal(name, each)), 1)
    made = datetime.datetime.now(datetime.timezone.utc).strftime("%Y-%m-%d %H:%M UTC")
    written = page(f"{options.trace} - Dekarino", {"program": programs.described(), "live": False, "made": made, **facts})
    try:
        pathlib.Path(options.output).write_bytes(written)
    except OSError as error:
        raise _Failed(f"cannot write {options.output}: {error.strerror}", 3) from None


def _serve(options: argparse.Namespace) -> None:
    """Serves the page until Ctrl-C."""
    given = [options.config and _read(options.config), options.trace and _read(options.trace)]
    try:
        serve(given[0], given[1], options.port, lambda address: print(f"{address}  (Ctrl-C ends it)", flush=True))
    except LibraryError:
        raise
    except OSError as error:
        raise _Failed(f"cannot serve on port {options.port}: {error.strerror}", 3) from None


def _port(word: str) -> int:
    if not word.isdecimal() or int(word) > 65535:
        raise argparse.ArgumentTypeError("it must be 0 to 65535")
    return int(word)


def _options() -> argparse.ArgumentParser:
    parser = argparse.ArgumentParser(prog="python3 -m dekarino", description=(
        "A page that shows a module and its calls, made from what the program dekarino says."))
    commands = parser.add_subparsers(title="commands", required=True, metavar="COMMAND")
    view = commands.add_parser("view", help="write the page as one file that any browser opens", description=(
        "Writes one file that any browser opens without a network: the module, a chart and a list of the calls."))
    view.add_argument("config", metavar="CONFIG", help="the file of a configuration")
    view.add_argument("trace", metavar="TRACE|LOG", help="the file of a trace, or of a log, whose calls have replies")
    view.add_argument("--orders", metavar="ORDER.log", help=(
        "a log to show beside it, such as one that 'dekarino judge --order' or 'dekarino orders --when' writes"))
    view.add_argument("-o", dest="output", metavar="PAGE", required=True, help="the file to write")
    view.set_defaults(do=_view)
    live = commands.add_parser("serve", help="serve the page on this machine, where both texts can be edited", description=(
        "Serves the page on the loopback address. Configuration and trace can be edited there; no file is written."))
    live.add_argument("config", metavar="CONFIG", nargs="?", help="the file of a configuration to begin with")
    live.add_argument("trace", metavar="TRACE|LOG", nargs="?", help="the file of a trace or a log to begin with")
    live.add_argument("--port", type=_port, default=0, help="the port; a free one if not given")
    live.set_defaults(do=_serve)
    return parser


def main(words: Optional[List[str]] = None) -> int:
    """Does what the command line asks for, and returns the status."""
    options = _options().parse_args(words)
    try:
        options.do(options)
    except _Failed as failure:
        print(f"dekarino: {failure}", file=sys.stderr)
        return failure.status
    except (LibraryError, Undecided) as error:
        print(f"dekarino: {error}", file=sys.stderr)
        return 3
    except KeyboardInterrupt:
        return 130
    except BrokenPipeError:
        os.dup2(os.open(os.devnull, os.O_WRONLY), sys.stdout.fileno())
        return 141
    return 0


if __name__ == "__main__":
    sys.exit(main())
