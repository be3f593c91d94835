"""A play as rows in the order in which things happened: segments, strays, timers, and what the application was told and called."""

from __future__ import annotations

import tomllib
from dataclasses import dataclass
from enum import IntEnum
from pathlib import Path

from captures.packets import ACK, SYN, Segment

from . import frames
from .frames import Record
from .trace import Connection, Entry, Input, Output, Stray, Trace, read_trace

HALF = 2**31
BEFORE_ENTRIES = -1
STRAY, DROP = "stray", "drop"


class BadPlay(Exception):
    """The files of a play don't belong together."""


class Phase(IntEnum):
    """The order of things within one cycle of a group: frames, timers, calls, and what is sent at its end."""

    TAKEN = 0
    TIMER = 1
    CALL = 2
    FLUSH = 3


class Side(IntEnum):
    """What a row shows: a frame of the peer, one of ours, the application, or a note."""

    PEER = 0
    OURS = 1
    APPLICATION = 2
    NOTE = 3


@dataclass
class Row:
    """One line of a ladder. `label` is the connection, or says that there is none; `frame` is tshark's number, counted from 1: `c4`
    in the capture, `r2` in the replies. `order` is entry, phase, connection and place in the journal."""

    order: tuple[int, int, int, int]
    tick: int
    wire: int
    side: Side
    label: str = ""
    frame: str = ""
    text: str = ""
    application: str = ""
    core: int | None = None


@dataclass(frozen=True)
class Files:
    """Where the five files of a play are."""

    conf: Path
    script: Path
    capture: Path
    replies: Path
    trace: Path

    @staticmethod
    def of_folder(folder: Path) -> Files:
        """The files of an example, by their names there."""
        names = ("conf.toml", "script", "capture.pcap", "replies.pcap", "trace.txt")
        return Files(*(folder / name for name in names))


@dataclass
class Play:
    """A play that was read, with its rows."""

    local: str
    port: int
    application: str
    trace: Trace
    rows: list[Row]

    def several(self) -> bool:
        """Whether rows have to say which connection they belong to, or that they belong to none."""
        return len(self.trace.connections) > 1 or any(row.label in (STRAY, DROP) for row in self.rows)


def offset(base: int, number: int) -> int:
    """The number from -2^31 to 2^31 - 1 that is congruent to number - base modulo 2^32."""
    return (number - base + HALF) % (2 * HALF) - HALF


@dataclass
class Numbers:
    """The two initial sequence numbers of a connection, by which numbers are shown: the SYN is 0. `irs` is None until it is known."""

    iss: int
    irs: int | None = None

    def learn(self, segment: Segment, passive: bool) -> None:
        """Takes the peer's initial number from its SYN, or from its SYN-ACK of our SYN."""
        answers = segment.flags & ACK and segment.acknowledgement == (self.iss + 1) % (2 * HALF)
        if self.irs is None and segment.flags & SYN and (passive or answers):
            self.irs = segment.sequence

    def shown(self, base: int | None, number: int) -> str:
        """A number counted from its side's SYN, or as it stands on the wire where that is not known."""
        return f"{number:08x}" if base is None else str(offset(base, number))

    def of_peer(self, segment: Segment) -> str:
        """A segment of the peer in words."""
        return self.words(segment, self.irs, self.iss)

    def of_ours(self, segment: Segment) -> str:
        """A segment of ours in words."""
        return self.words(segment, self.iss, self.irs)

    def words(self, segment: Segment, sender: int | None, receiver: int | None) -> str:
        """Flags, numbers, and what stands behind them."""
        words = [frames.flag_names(segment), f"seq {self.shown(sender, segment.sequence)}"]
        if segment.flags & ACK:
            words.append(f"ack {self.shown(receiver, segment.acknowledgement)}")
        return " ".join([*words, frames.tail(segment)])


class Builder:
    """Makes the rows of a play out of its files."""

    def __init__(self, trace: Trace, capture: list[Record], replies: list[Record]) -> None:
        self.trace = trace
        self.entries = {entry.wire: entry for entry in trace.entries}
        self.capture = capture
        self.replies = replies
        self.rows: list[Row] = []

    def build(self) -> list[Row]:
        """All rows, in the order in which things happened."""
        for place, connection in enumerate(self.trace.connections):
            self.connection(place, connection)
        for stray in self.trace.strays:
            self.stray(stray)
        for entry in self.entries.values():
            self.note(entry)
        return sorted(self.rows, key=lambda row: row.order)

    def tick(self, wire: int) -> int:
        """The clock of an entry, 0 before all entries."""
        return 0 if wire == BEFORE_ENTRIES else self.entry(wire).tick

    def entry(self, wire: int) -> Entry:
        """The entry with a wire number."""
        if wire not in self.entries:
            raise BadPlay(f"the trace names entry {wire}, and the wire list has none")
        return self.entries[wire]

    def arrived(self, wire: int) -> tuple[int, bytes]:
        """The record of a frame entry, and its bytes."""
        record = self.entry(wire).record
        if record is None or record >= len(self.capture):
            raise BadPlay(f"entry {wire} is no frame of the capture")
        return record, self.capture[record].frame

    def sent(self, number: int) -> bytes:
        """The bytes of a reply."""
        if number >= len(self.replies):
            raise BadPlay(f"the trace names reply {number}, and the replies have {len(self.replies)} records")
        return self.replies[number].frame

    def add(self, order: tuple[int, int, int, int], side: Side, **rest: object) -> Row:
        """Puts a row of the entry that stands first in its order."""
        wire = order[0]
        row = Row(order, self.tick(wire), wire, side, **rest)  # type: ignore[arg-type]
        self.rows.append(row)
        return row

    def note(self, entry: Entry) -> None:
        """The row of an entry that says something by itself: a time, a drop, a tag or a move of a group with connections."""
        order = (entry.wire, -1, 0, 0)
        groups = {connection.group for connection in self.trace.connections}
        if entry.kind == "time":
            self.add(order, Side.NOTE, text=f"time {entry.tick}")
        elif entry.kind == "drop" and entry.record is not None:
            text = frames.describe(self.capture[entry.record].frame)
            self.add(order, Side.PEER, label=DROP, frame=f"c{entry.record + 1}", text=text, application=entry.text)
        elif entry.kind in ("tag", "move") and entry.group in groups:
            self.add(order, Side.NOTE, text=entry.text)

    def stray(self, stray: Stray) -> None:
        """The rows of a frame that no connection took, and of its answer."""
        record, frame = self.arrived(stray.wire)
        order = (stray.wire, 0, 0, 0)
        core = stray.core if self.trace.cores > 1 else None
        why = stray.kind if stray.reply is not None else f"{stray.kind}, no answer"
        text = frames.describe(frame)
        self.add(order, Side.PEER, label=STRAY, frame=f"c{record + 1}", text=text, application=why, core=core)
        if stray.reply is not None:
            text = frames.describe(self.sent(stray.reply))
            self.add((stray.wire, 0, 0, 1), Side.OURS, label=STRAY, frame=f"r{stray.reply + 1}", text=text)

    def connection(self, place: int, connection: Connection) -> None:
        """The rows of a connection's journal."""
        numbers = Numbers(connection.iss)
        passive = not connection.inputs or connection.inputs[0].kind != "connect"
        for position, given in enumerate(connection.inputs):
            wire, phase = self.when(connection, position)
            order = (wire, phase, place, position)
            row = self.input_row(order, connection, given, numbers, passive)
            for output in given.outputs:
                row = self.output_row(order, connection, output, numbers, row)

    def when(self, connection: Connection, position: int) -> tuple[int, Phase]:
        """The entry and the phase of an input: a segment's own entry, else the last one of its cycle, which its flush names."""
        given = connection.inputs[position]
        if given.kind == "connect":
            return BEFORE_ENTRIES, Phase.TAKEN
        if given.kind == "seg":
            return given.number(), Phase.TAKEN
        phase = {"timer": Phase.TIMER, "call": Phase.CALL, "flush": Phase.FLUSH}[given.kind]
        for later in connection.inputs[position:]:
            if later.kind == "flush":
                return later.number(), phase
        raise BadPlay(f"connection {connection.label()} has a cycle without its flush")

    def input_row(
        self, order: tuple[int, int, int, int], connection: Connection, given: Input, numbers: Numbers, passive: bool
    ) -> Row | None:
        """The row of an input; a flush has none of its own."""
        label = connection.label()
        if given.kind == "seg":
            record, frame = self.arrived(given.number())
            segment = frames.segment_of(frame)
            if segment is None:
                raise BadPlay(f"entry {given.number()} is no segment, and connection {label} has it")
            numbers.learn(segment, passive)
            core = given.core() if self.trace.cores > 1 else None
            text = numbers.of_peer(segment)
            return self.add(order, Side.PEER, label=label, frame=f"c{record + 1}", text=text, core=core)
        if given.kind == "timer":
            return self.add(order, Side.OURS, label=label, text="timer")
        if given.kind == "call":
            returns = [" ".join(output.words) for output in given.outputs if output.kind == "ret"]
            text = f"<-- {' '.join(given.words)}: {', '.join(returns)}"
            return self.add(order, Side.APPLICATION, label=label, application=text)
        if given.kind == "connect":
            return self.add(order, Side.APPLICATION, label=label, application="<-- connect")
        return None

    def output_row(
        self, order: tuple[int, int, int, int], connection: Connection, output: Output, numbers: Numbers, row: Row | None
    ) -> Row | None:
        """The row of an output. What is told first goes beside the segment or the timer that it came of."""
        label = connection.label()
        if output.kind == "reply":
            segment = frames.segment_of(self.sent(output.reply()))
            if segment is None:
                raise BadPlay(f"reply {output.reply()} is no segment, and connection {label} has it")
            return self.add(order, Side.OURS, label=label, frame=f"r{output.reply() + 1}", text=numbers.of_ours(segment))
        if output.kind == "event":
            text = f"--> {told(output.words)}"
            if row is not None and not row.application:
                row.application = text
                return row
            return self.add(order, Side.APPLICATION, label=label, application=text)
        return row


def told(words: tuple[str, ...]) -> str:
    """What an application was told, without the places in buffers."""
    match words:
        case ["recv", "end"]:
            return "end of stream"
        case ["recv", _, _, length]:
            return f"recv {length}"
        case ["sent", count, room]:
            return f"sent {count}, room {room}"
        case _:
            return " ".join(words)


def read_play(files: Files) -> Play:
    """Reads the five files of a play and joins them; files that are not those of one play are a BadPlay."""
    try:
        return join(files)
    except (LookupError, ValueError) as error:
        raise BadPlay(f"{files.conf}, {files.script} and {files.trace} are not files of one play: {error!r}") from error


def join(files: Files) -> Play:
    """Reads the five files and makes the rows."""
    conf = tomllib.loads(files.conf.read_text(encoding="utf-8"))
    local = conf["local"]
    capture, replies = frames.read_capture(files.capture), frames.read_capture(files.replies)
    trace = read_trace(files.trace)
    rows = Builder(trace, capture, replies).build()
    return Play(local["ip"], local["port"], local["app"], trace, rows)
