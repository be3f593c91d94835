"""The preparation of a capture: windows in bytes, joined frames cut, checksums finished; all else stays as it is."""
from __future__ import annotations

import struct
from collections import Counter
from dataclasses import dataclass, field, replace

from typing import Iterator

from captures.capture import Capture, Fault, Record
from captures.connections import Connection, Connections
from captures.links import ETHERNET, NAMES, demand_known, ethernet_frame, hardware_address
from captures.packets import CWR, FIN, ICMP, LONGEST_FRAME, PSH, RST, SYN, TCP, UDP, URG, Kind, Packet, Segment, Sum, kind_of

GREATEST_WINDOW = 65_535
LONGEST_READ = 2_048
MOST_MISSING = 2**31
PROTOCOLS = {ICMP: "ICMP", TCP: "TCP", UDP: "UDP"}


@dataclass
class Report:
    """What a preparation found and changed. Lists hold the numbers of records of the capture that was read."""

    records: int
    flags: int
    links: set[str] = field(default_factory=set)
    hosts: dict[bytes, bytes] = field(default_factory=dict)
    apart: list[int] = field(default_factory=list)
    scaled: int = 0
    unopened: int = 0
    scales: list[int] = field(default_factory=list)
    windows: list[int] = field(default_factory=list)
    cut: list[int] = field(default_factory=list)
    pieces: int = 0
    finished: list[int] = field(default_factory=list)
    finished_sums: Counter[str] = field(default_factory=Counter)
    kinds: Counter[Kind] = field(default_factory=Counter)
    wrong: list[int] = field(default_factory=list)
    long: list[int] = field(default_factory=list)

    def changed(self) -> set[int]:
        """The records that are written otherwise than they were read, but for their link type."""
        return {*self.apart, *self.scales, *self.windows, *self.cut, *self.finished}

    @property
    def written(self) -> int:
        """The number of records that are written."""
        return self.records - len(self.cut) + self.pieces


@dataclass(frozen=True)
class Look:
    """What a frame is. Its packet is there where it may be changed; `unfinished` names what a card was to write."""

    kind: Kind
    packet: Packet | None = None
    unfinished: tuple[str, ...] = ()
    segment: Segment | None = None
    connection: Connection | None = None


def prepare(capture: Capture) -> tuple[Capture, Report]:
    """The prepared capture, and what was changed."""
    demand_known(capture.head.link)
    report = Report(len(capture.records), capture.head.flags)
    if capture.head.link != ETHERNET:
        report.links.add(NAMES[capture.head.link])
    records = [_in_ethernet(number, record, report) for number, record in enumerate(capture.records)]
    looks = _with_connections([look_at(record.frame) for record in records], report)
    prepared = []
    for number, (record, look) in enumerate(zip(records, looks)):
        frames = _prepared(number, record.frame, look, report)
        prepared += [replace(record, frame=frame, missing=0 if len(frames) > 1 else record.missing) for frame in frames]
    return Capture(replace(capture.head, link=ETHERNET, flags=0), prepared), report


def _in_ethernet(number: int, record: Record, report: Report) -> Record:
    if record.link == ETHERNET:
        return record
    try:
        frame = ethernet_frame(record.link, record.frame)
    except Fault as fault:
        raise Fault(f"record {number}: {fault}") from None
    report.links.add(NAMES[record.link])
    if frame[12:14] == b"\x08\x00" and len(frame) >= 34:
        report.hosts[frame[26:30]] = frame[6:12]
        report.hosts[frame[30:34]] = frame[:6]
    return replace(record, link=ETHERNET, frame=frame, missing=min(max(0, record.missing), MOST_MISSING))


def look_at(frame: bytes) -> Look:
    """What a frame is, and the state of its sums."""
    kind = kind_of(frame)
    if kind is not Kind.PACKET:
        return Look(kind)
    packet = Packet.of(frame)
    sums = {"IPv4": packet.header_sum(), PROTOCOLS.get(packet.protocol, ""): packet.payload_sum()}
    if Sum.WRONG in sums.values():
        return Look(Kind.WRONG)
    unfinished = [name for name, state in sums.items() if state is Sum.UNFINISHED]
    if struct.unpack_from(">H", frame, 16)[0] == 0:
        unfinished.append("length")
    return Look(kind, packet, tuple(unfinished), Segment.of(packet))


def _with_connections(looks: list[Look], report: Report) -> list[Look]:
    """The looks with the connections of their segments. A connection is known whole before a segment of it is changed."""
    connections = Connections()
    found = []
    for look in looks:
        connection = connections.take(look.segment) if look.segment else None
        found.append(replace(look, connection=connection))
    report.scaled = sum(connection.is_scaled for connection in connections.all)
    report.unopened = sum(map(_is_unopened, found))
    return found


def _is_unopened(look: Look) -> bool:
    """Whether a frame is a segment of a connection whose opening is not whole in the capture."""
    if look.segment is None or look.segment.flags & (SYN | RST):
        return False
    return look.connection is None or not look.connection.is_opened


def segments_of(capture: Capture) -> Iterator[tuple[Segment, Connection]]:
    """The segments of a prepared capture with their connections, of which each tells what was seen so far."""
    connections = Connections()
    for record in capture.records:
        segment = look_at(record.frame).segment
        connection = connections.take(segment) if segment else None
        if segment and connection:
            yield segment, connection


def _prepared(number: int, frame: bytes, look: Look, report: Report) -> list[bytes]:
    """The frames that are written for one that was read."""
    report.kinds[look.kind] += 1
    if look.kind is Kind.WRONG:
        report.wrong.append(number)
    if look.unfinished:
        report.finished.append(number)
        report.finished_sums.update(look.unfinished)
    frames = _rewritten(number, frame, look, report)
    if any(len(each) > LONGEST_READ for each in frames):
        report.long.append(number)
    return frames


def _rewritten(number: int, frame: bytes, look: Look, report: Report) -> list[bytes]:
    if look.packet is None:
        return [frame]
    if look.segment is None:
        return [look.packet.finished().frame()] if look.unfinished else [frame]
    segment = in_bytes(apart(look.segment, look.connection), look.connection)
    if segment.packet != look.packet:
        report.apart.append(number)
    if segment.options != look.segment.options:
        report.scales.append(number)
    if segment.window != look.segment.window:
        report.windows.append(number)
    pieces = cut(segment, look.connection)
    if len(pieces) > 1:
        report.cut.append(number)
        report.pieces += len(pieces)
    if pieces == [look.segment] and not look.unfinished:
        return [frame]
    return [piece.frame() for piece in pieces]


def apart(segment: Segment, connection: Connection | None) -> Segment:
    """The segment with two hardware addresses, where both sides of its connection have the same, as on a loopback interface."""
    ethernet = segment.packet.ethernet
    if connection is None or ethernet[:6] != ethernet[6:12]:
        return segment
    answers, opens = connection.server.endpoint.address, connection.client.endpoint.address
    addresses = hardware_address(answers), hardware_address(opens, opens=True)
    destination, source = addresses if connection.sender(segment) is connection.client else addresses[::-1]
    return replace(segment, packet=replace(segment.packet, ethernet=destination + source + ethernet[12:]))


def in_bytes(segment: Segment, connection: Connection | None) -> Segment:
    """The segment with its window in bytes, and without a window scale option, where its connection scales windows."""
    if connection is None or not connection.is_scaled:
        return segment
    if segment.flags & SYN:
        return replace(segment, options=segment.options_without_scale())
    window = segment.window << (connection.sender(segment).shift or 0)
    return replace(segment, window=min(GREATEST_WINDOW, window))


def cut(segment: Segment, connection: Connection | None) -> list[Segment]:
    """The segments of which a frame was joined, where it is longer than a frame of Ethernet."""
    room = LONGEST_FRAME - segment.headers()
    if len(segment.body) <= room:
        return [segment]
    mss = connection.receiver(segment).mss if connection else None
    length = max(1, min(room, mss - len(segment.options))) if mss else room
    return [_piece(segment, at, length) for at in range(0, len(segment.body), length)]


def _piece(segment: Segment, at: int, length: int) -> Segment:
    """The piece of a joined segment that begins `at` octets behind its first one."""
    is_last = at + length >= len(segment.body)
    flags = segment.flags if is_last else segment.flags & ~(FIN | PSH | RST)
    sequence = segment.sequence + at
    if at > 0:
        flags &= ~(CWR | SYN)
        sequence += bool(segment.flags & SYN)
    urgent = max(0, segment.urgent - at) if flags & URG else segment.urgent
    if flags & URG and urgent == 0:
        flags &= ~URG
    packet = segment.packet
    header = packet.header[:4] + _identification(packet.header, at // length) + packet.header[6:]
    return replace(
        segment,
        packet=replace(packet, header=header, trailer=b""),
        sequence=sequence % 2**32,
        flags=flags,
        urgent=urgent,
        body=segment.body[at : at + length],
    )


def _identification(header: bytes, number: int) -> bytes:
    """The identification of the packet that stands so many packets behind that of a header."""
    return struct.pack(">H", (struct.unpack_from(">H", header, 4)[0] + number) % 2**16)
