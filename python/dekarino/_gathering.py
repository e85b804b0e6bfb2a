"""Gathers what the program `dekarino` says about a configuration and about traces or logs, for the page of `view` and
`serve`. It decides nothing: it sorts lines of JSON by their subject."""
import contextlib
import hashlib
import json
import os
import re
import subprocess
import threading
from dataclasses import dataclass
from typing import Any, Dict, Iterator, List, Optional, Sequence, Set, Tuple, Union

from ._library import FOLDER, ROOT
from ._program import find_program

Facts = Dict[str, Any]
# The orders of a trace with more calls are not searched.
MOST_ORDERED = 500
# The greatest whole number that JavaScript can represent exactly.
MOST_EXACT = 2**53 - 1
# (a time-out follows the arguments of a call that may wait)
TIME_OUT = re.compile(rb"[ \t]+timeout[ \t]+(?:\d+|infinite)[ \t]*$")


class Undecided(Exception):
    """A program took too long or was ended, or there was no turn for it."""


@dataclass(frozen=True)
class Source:
    """A text with the name that the page has for it."""

    name: str
    content: bytes

    def described(self) -> Facts:
        return {"name": self.name, "bytes": len(self.content), "sha256": hashlib.sha256(self.content).hexdigest()}


@dataclass(frozen=True)
class Ran:
    """The status of a program, its lines of standard output, its standard error, and the paths of the texts it read."""

    status: int
    lines: List[str]
    said: str
    paths: List[str]

    def objects(self) -> List[Facts]:
        return [json.loads(line) for line in self.lines]


class Programs:
    """Runs the program `dekarino`: at most `most` runs at once, each for at most `seconds`. Texts are passed in memory, so
    that no file of them is left."""

    def __init__(self, most: int = 4, seconds: Optional[float] = None) -> None:
        self.path = str(find_program("dekarino"))
        self.seconds = seconds
        self.turns = threading.BoundedSemaphore(most)
        self.running: Set["subprocess.Popen[str]"] = set()
        self.is_stopped = False
        self.lock = threading.Lock()

    def run(self, *words: Union[str, bytes, Tuple[str, bytes]]) -> Ran:
        """A word that is bytes is a text; one that is a pair is the text of a partition."""
        with contextlib.ExitStack() as stack:
            stack.enter_context(self._turn())
            given, paths, descriptors = [], [], []
            for word in words:
                if isinstance(word, str):
                    given.append(word)
                    continue
                descriptor = stack.enter_context(_in_memory(word if isinstance(word, bytes) else word[1]))
                descriptors.append(descriptor)
                paths.append(f"/dev/fd/{descriptor}")
                given.append(paths[-1] if isinstance(word, bytes) else f"{word[0]}={paths[-1]}")
            process = stack.enter_context(self._start(given, descriptors))
            try:
                output, said = process.communicate(timeout=self.seconds)
            except subprocess.TimeoutExpired:
                raise Undecided(f"it took more than {self.seconds:g} seconds") from None
            if process.returncode < 0:
                raise Undecided(f"the program was ended by the signal {-process.returncode}")
        return Ran(process.returncode, output.splitlines(), said.rstrip("\n"), paths)

    @contextlib.contextmanager
    def _turn(self) -> Iterator[None]:
        if not self.turns.acquire(timeout=self.seconds):
            raise Undecided("too many programs run")
        try:
            yield
        finally:
            self.turns.release()

    @contextlib.contextmanager
    def _start(self, words: List[str], descriptors: List[int]) -> Iterator["subprocess.Popen[str]"]:
        with self.lock:
            if self.is_stopped:
                raise Undecided("the server ends")
            process = subprocess.Popen([self.path, *words], stdin=subprocess.DEVNULL, stdout=subprocess.PIPE,
                                       stderr=subprocess.PIPE, pass_fds=descriptors, encoding="utf-8", errors="replace")
            self.running.add(process)
        try:
            yield process
        finally:
            with self.lock:
                self.running.discard(process)
            process.kill()
            process.communicate()

    def stop(self) -> None:
        """Ends the running programs, and starts no more."""
        with self.lock:
            self.is_stopped = True
            ending = list(self.running)
        for process in ending:
            process.kill()
            process.wait()

    def described(self) -> Facts:
        with open(self.path, "rb") as file:
            digest = hashlib.sha256(file.read()).hexdigest()
        return {"version": self.run("--version").lines[0], "sha256": digest, "origin": _origin(digest)}


def _origin(digest: str) -> List[str]:
    """What a checkout, an unpacked package or an installed one says about the sources and the toolchain of its programs."""
    for path in (ROOT / "prebuilt/BUILT_FROM", ROOT / "python/out/BUILT_FROM", ROOT / "BUILT_FROM", FOLDER / "BUILT_FROM"):
        text = path.read_text() if path.is_file() else ""
        # (an unpacked package has one text for all its programs; a checkout may have built its own)
        if digest in text or text.startswith("dekarino "):
            return re.findall(r"^(?:sources|toolchain|commit|proved by) .*", text, re.M)
    return []


@contextlib.contextmanager
def _in_memory(content: bytes) -> Iterator[int]:
    """A file of this text that has no name."""
    with open(os.memfd_create("text"), "wb") as file:
        file.write(content)
        file.flush()
        yield file.fileno()


def _exact(value: Any) -> Any:
    return str(value) if isinstance(value, int) and value > MOST_EXACT else value


def _mistake(line: Facts, path: str) -> Facts:
    """A place of a refused text, without its path."""
    found = re.fullmatch(rf"(?:{re.escape(path)}:)?(?:(\d+):)?(?:(\d+):)? ?(.*)", line["place"], re.S)
    line_at, column, words = found.groups() if found else (None, None, line["place"])
    return {"line": line_at and int(line_at), "column": column and int(column), "words": words}


def _configuration(programs: Programs, config: Source) -> Tuple[Facts, List[Facts]]:
    """The configuration as the programs describe it, and the lines of its table."""
    ran = programs.run("table", "--json", config.content)
    lines = [{key: _exact(it) for key, it in line.items()} for line in ran.objects()]
    facts: Facts = {**config.described(), "text": config.content.decode(errors="replace"), "said": ran.said, "mistakes": []}
    if ran.status != 0:
        facts["mistakes"] = [_mistake(line, ran.paths[0]) for line in lines if "place" in line]
        lines = []
    return facts, lines


# ---- traces and logs

def _is_call(line: bytes) -> bool:
    return line.strip(b" \t\r") != b"" and not line.lstrip(b" \t").startswith(b"#")


def is_log(content: bytes) -> bool:
    """Whether the first line with a call has an arrow."""
    return b"->" in next(filter(_is_call, content.split(b"\n")), b"")


def _without_replies(content: bytes) -> Tuple[List[bytes], List[List[Optional[str]]]]:
    """The lines of a log's calls as lines of a trace, and what follows the arrow of each call: its reply and its note."""
    lines: List[bytes] = []
    logged: List[List[Optional[str]]] = []
    for line in content.split(b"\n"):
        if line.split()[:1] == [b"after"]:
            break
        if not _is_call(line):
            lines.append(line)
            continue
        call, _, behind = line.partition(b"->")
        lines.append(TIME_OUT.sub(b"", call))
        reply, bracket, note = behind.decode(errors="replace").partition("(")
        logged.append([" ".join(reply.split()), note.strip()[:-1] if bracket else None])
    return lines, logged


def _table_of(lines: Sequence[Facts]) -> Facts:
    """Objects with the same keys, as one list of keys and a row for each object."""
    return {"keys": list(lines[0]) if lines else [], "rows": [[_exact(it) for it in line.values()] for line in lines]}


def _explained(programs: Programs, config: bytes, trace: bytes) -> Facts:
    ran = programs.run("explain", "--json", config, trace)
    lines = ran.objects()
    return {
        "calls": [line for line in lines if "service" in line],
        "remarks": [{key: _exact(it) for key, it in line.items()} for line in lines if "remark" in line],
        "mistakes": [_mistake(line, ran.paths[1]) for line in lines if "place" in line],
        "is_whole": ran.status == 0, "said": ran.said,
    }


def _judged(programs: Programs, config: bytes, log: bytes) -> Facts:
    ran = programs.run("judge", "--json", "--whole", config, log)
    lines = ran.objects()
    departures = [{key: _exact(it) for key, it in line.items()} for line in lines if "logged" in line]
    mistakes = [_mistake(line, ran.paths[1]) for line in lines if "place" in line]
    counts = [line for line in lines if "departures" in line]
    return {"departures": departures, "judged": counts[0] if counts else None, "said": ran.said, "mistakes": mistakes}


def _arrows(programs: Programs, config: bytes, lines: List[bytes], calls: List[Facts], known: int, is_whole: bool) -> Facts:
    """The arrows between the first `known` calls. The waiting messages are those at the end of the trace."""
    if known == 0:
        return {"arrows": [], "waits": []}
    ran = programs.run("draw", "--json", config, b"\n".join(lines[: calls[known - 1]["line"]]))
    if ran.status != 0:
        raise Undecided(ran.said)
    facts, = ran.objects()
    arrows = [[it["from"], it["to"], int(it["kind"] == "sample")] for it in facts["arrows"]]
    return {"arrows": arrows, "waits": facts["waiting"] if is_whole and known == len(calls) else None}


def _orders(programs: Programs, config: bytes, lines: List[bytes], calls: List[Facts], states: int) -> Facts:
    """The replies and the ends of all orders of the calls, with each partition's calls as its script. A script's lines
    keep their numbers."""
    if len(calls) > MOST_ORDERED:
        return {"said": f"not asked for: the trace has more than {MOST_ORDERED} calls", "calls": [], "groups": []}
    scripts: Dict[str, List[bytes]] = {}
    for call in calls:
        moment, _, rest = lines[call["line"] - 1].split(None, 2)
        script = scripts.setdefault(call["partition"], [b""] * len(lines))
        script[call["line"] - 1] = moment + b" " + rest
    texts = [(name, b"\n".join(script) + b"\n") for name, script in scripts.items()]
    try:
        ran = programs.run("orders", "--json", "--states", str(states), config, *texts)
    except Undecided as why:
        return {"said": f"undecided: {why}", "calls": [], "groups": []}
    facts = ran.objects() if ran.status == 0 else []
    replies = [[line["line"], line["replies"]] for line in facts if "replies" in line]
    return {"said": ran.said, "calls": replies, "groups": [line for line in facts if "states" in line]}


def _run(programs: Programs, config: bytes, source: Source, states: int) -> Facts:
    """All that the page shows of a trace or a log."""
    facts: Facts = {**source.described(), "kind": "log" if is_log(source.content) else "trace", "logged": None}
    lines = source.content.split(b"\n")
    judged: Facts = {"departures": [], "judged": None}
    if facts["kind"] == "log":
        lines, facts["logged"] = _without_replies(source.content)
        judged = _judged(programs, config, source.content)
    explained = _explained(programs, config, b"\n".join(lines))
    calls = explained["calls"]
    known = len(calls)
    if facts["kind"] == "log":
        first = min((it["line"] for it in judged["departures"]), default=None)
        known = known if first is None else sum(call["line"] < first for call in calls)
        explained["remarks"] = [] if first is not None else explained["remarks"]
        if judged["judged"] is None:
            # (a log is refused whole)
            explained["calls"], calls, known = [], [], 0
            explained.update(said=judged["said"], mistakes=judged["mistakes"], is_whole=False)
            judged["departures"] = []
    facts.update(explained, departures=judged["departures"], judged=judged["judged"], known=known)
    facts["calls"] = _table_of(calls)
    facts.update(_arrows(programs, config, lines, calls, known, explained["is_whole"]))
    is_ordered = calls and explained["is_whole"]
    facts["orders"] = _orders(programs, config, lines, calls, states) if is_ordered else None
    return facts


def gather(programs: Programs, config: Source, runs: Sequence[Source], states: int) -> Facts:
    """All that the page shows."""
    facts, table = _configuration(programs, config)
    is_read = not facts["mistakes"] and not facts["said"]
    return {"config": facts, "table": table,
            "runs": [_run(programs, config.content, source, states) for source in runs] if is_read else []}
