"""The trace of a play, read for people. docs/TRACE.md has its lines.

This reader is no judge: it takes lines whose words it knows, and says where a line is none of them.
"""

from __future__ import annotations

from dataclasses import dataclass, field
from pathlib import Path


class BadTrace(Exception):
    """A file is no trace that this reader knows."""


@dataclass(frozen=True)
class Output:
    """What came of an input: `reply`, `ret` or `event`, and the words behind it."""

    kind: str
    words: tuple[str, ...]

    def reply(self) -> int:
        """The number of a reply, counted from 0."""
        return int(self.words[0])


@dataclass
class Input:
    """An input of a journal with what came of it: `connect`, `seg`, `timer`, `call` or `flush`."""

    kind: str
    words: tuple[str, ...]
    outputs: list[Output] = field(default_factory=list)

    def number(self) -> int:
        """The wire number of a segment or a flush, the tick of a timer."""
        return int(self.words[0])

    def core(self) -> int:
        """The core that stepped a segment."""
        return int(self.words[2])


@dataclass
class Connection:
    """A connection with its journal, and how it was left."""

    group: int
    place: int
    remote: str
    remote_port: int
    local_port: int
    iss: int
    inputs: list[Input] = field(default_factory=list)
    left: str = ""
    answer: str = ""

    def label(self) -> str:
        """Its name in a ladder: the flow group, and its place among the connections of that group."""
        return f"{self.group}.{self.place}"


@dataclass(frozen=True)
class Stray:
    """An accepted frame that no connection took; `reply` is None where it got no answer."""

    wire: int
    core: int
    kind: str
    reply: int | None


@dataclass(frozen=True)
class Entry:
    """An entry of the wire list. `record` is that of a frame, `tick` the clock, `text` what a tag, a move or a drop says."""

    wire: int
    kind: str
    tick: int
    record: int | None = None
    group: int | None = None
    text: str = ""


@dataclass
class Trace:
    """A trace, but for its counts of rings and buffers."""

    cores: int = 1
    entries: list[Entry] = field(default_factory=list)
    connects: list[str] = field(default_factory=list)
    strays: list[Stray] = field(default_factory=list)
    connections: list[Connection] = field(default_factory=list)
    replies: int = 0
    drops: int = 0


INPUTS = ("connect", "seg", "timer", "call", "flush")
OUTPUTS = ("reply", "ret", "event")
IGNORED = ("ring", "home", "closed")


def read_trace(path: Path) -> Trace:
    """The trace in a file."""
    reader = Reader()
    for number, line in enumerate(path.read_text(encoding="ascii").splitlines(), start=1):
        try:
            reader.take(line.split(" "))
        except (IndexError, ValueError) as error:
            raise BadTrace(f"{path}: line {number} is not understood: {line}") from error
    if not reader.ended:
        raise BadTrace(f"{path}: there is no end line")
    return reader.trace


class Reader:
    """Takes a trace line by line."""

    def __init__(self) -> None:
        self.trace = Trace()
        self.clock = 0
        self.ended = False

    def take(self, words: list[str]) -> None:
        """Takes the words of one line; an unknown line is a ValueError."""
        first = words[0]
        if first in IGNORED:
            return
        if first in INPUTS and self.trace.connections:
            self.connection().inputs.append(Input(first, tuple(words[1:])))
        elif first in OUTPUTS:
            self.connection().inputs[-1].outputs.append(Output(first, tuple(words[1:])))
        elif first in ("frame", "time", "tag", "move", "settle"):
            self.take_entry(words)
        else:
            self.take_rest(words)

    def connection(self) -> Connection:
        """The connection whose part is being read."""
        return self.trace.connections[-1]

    def take_rest(self, words: list[str]) -> None:
        """A line that is no entry and no part of a journal."""
        match words:
            case ["head", "2", "cores", cores, *_]:
                self.trace.cores = int(cores)
            case ["connect", _, answer]:
                self.trace.connects.append(answer)
            case ["stray", wire, "core", core, *kind, "reply", reply]:
                number = None if reply == "-" else int(reply)
                self.trace.strays.append(Stray(int(wire), int(core), " ".join(kind), number))
            case ["conn", group, place, "remote", address, port, "local", local, "iss", iss]:
                self.trace.connections.append(
                    Connection(int(group), int(place), address, int(port), int(local), int(iss, 16))
                )
            case ["left", *rest]:
                self.connection().left = " ".join(rest)
            case ["answer", *rest]:
                self.connection().answer = " ".join(rest)
            case ["end", "replies", replies, "drops", drops]:
                self.trace.replies, self.trace.drops, self.ended = int(replies), int(drops), True
            case _:
                raise ValueError("unknown line")

    def take_entry(self, words: list[str]) -> None:
        """An entry of the wire list."""
        match words:
            case ["settle", "open"]:
                return
            case ["settle", wire]:
                entry = Entry(int(wire), "settle", self.clock)
            case ["time", wire, tick]:
                self.clock = int(tick)
                entry = Entry(int(wire), "time", self.clock)
            case ["tag", wire, group]:
                entry = Entry(int(wire), "tag", self.clock, group=int(group), text=f"tag of group {group}")
            case ["move", wire, group, core]:
                text = f"group {group} moves to core {core}"
                entry = Entry(int(wire), "move", self.clock, group=int(group), text=text)
            case ["frame", wire, "rec", record, "at", tick, "group", group, "ring", _, "drop", *why]:
                entry = Entry(int(wire), "drop", int(tick), int(record), int(group), " ".join(why))
            case ["frame", wire, "rec", record, "at", tick, "group", group, "ring", _, "buf", _]:
                entry = Entry(int(wire), "frame", int(tick), int(record), int(group))
            case _:
                raise ValueError("unknown entry")
        self.trace.entries.append(entry)
