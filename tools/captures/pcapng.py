"""pcapng files (draft-ietf-opsawg-pcapng): sections, interfaces and packets are read, all other blocks are passed over."""
from __future__ import annotations

import struct
from dataclasses import dataclass, replace
from typing import Iterator

from captures.capture import MICROSECONDS, NANOSECONDS, Capture, Fault, Head, Record
from captures.links import ETHERNET

SECTION = 0x0A0D0D0A
INTERFACE = 1
OLD_PACKET = 2
SIMPLE_PACKET = 3
PACKET = 6
ORDER_MARK = 0x1A2B3C4D
BILLION = 1_000_000_000
MOST_CAPTURED = 262_144
OPTION_RESOLUTION = 9
OPTION_OFFSET = 14


@dataclass(frozen=True)
class Block:
    """One block: its place in the file, its section's order of bytes, its type, and its body."""

    at: int
    order: str
    kind: int
    body: bytes

    def unpack(self, form: str) -> tuple[int, ...]:
        """The numbers at the front of the body."""
        if len(self.body) < struct.calcsize("<" + form):
            raise Fault(f"byte {self.at}: a block of type {self.kind} with a body of {len(self.body)} bytes is too short")
        return struct.unpack_from(self.order + form, self.body)


@dataclass(frozen=True)
class Interface:
    """What an interface says of its packets. `offset` is in seconds, and `snap` is 0 where it sets no limit."""

    link: int
    snap: int
    ticks_a_second: int
    offset: int

    def time(self, ticks: int) -> tuple[int, int]:
        """Seconds and nanoseconds of a packet's time."""
        seconds, rest = divmod(ticks, self.ticks_a_second)
        return seconds + self.offset, rest * BILLION // self.ticks_a_second


def read_pcapng(data: bytes) -> Capture:
    """The packets of all sections, in nanoseconds where a time needs them and else in microseconds. Each has a link type of its own."""
    records = list(_records_of(data))
    fine = any(record.fraction % 1000 for record in records)
    if not fine:
        records = [replace(record, fraction=record.fraction // 1000) for record in records]
    return Capture(Head("<", NANOSECONDS if fine else MICROSECONDS, 0, 0, MOST_CAPTURED, ETHERNET, 0), records)


def _records_of(data: bytes) -> Iterator[Record]:
    interfaces: list[Interface] = []
    time = (0, 0)
    for block in _blocks_of(data):
        if block.kind == SECTION:
            interfaces = []
        elif block.kind == INTERFACE:
            interfaces.append(_interface_of(block))
        elif block.kind in (PACKET, OLD_PACKET, SIMPLE_PACKET):
            record = _record_of(block, interfaces, time)
            time = (record.seconds, record.fraction)
            yield record


def _blocks_of(data: bytes) -> Iterator[Block]:
    at, order = 0, "<"
    while at < len(data):
        if len(data) - at < 12:
            raise Fault(f"byte {at}: a block has at least 12 bytes, {len(data) - at} are there")
        if data[at : at + 4] == b"\x0a\x0d\x0d\x0a":
            order = _order_at(data, at)
        kind, length = struct.unpack_from(order + "II", data, at)
        if length < 12 or length % 4:
            raise Fault(f"byte {at}: no block has {length} bytes")
        if len(data) - at < length:
            raise Fault(f"byte {at}: a block of {length} bytes is cut: {len(data) - at} are there")
        if struct.unpack_from(order + "I", data, at + length - 4)[0] != length:
            raise Fault(f"byte {at}: the two lengths of a block differ")
        yield Block(at, order, kind, data[at + 8 : at + length - 4])
        at += length


def _order_at(data: bytes, at: int) -> str:
    """The order of bytes of the section that begins at `at`."""
    for order in "<>":
        if data[at + 8 : at + 12] == struct.pack(order + "I", ORDER_MARK):
            major = struct.unpack_from(order + "H", data, at + 12)[0] if len(data) >= at + 14 else 1
            if major != 1:
                raise Fault(f"byte {at + 12}: version {major} of pcapng is not 1")
            return order
    raise Fault(f"byte {at + 8}: {data[at + 8:at + 12].hex()} is no order of bytes of a section")


def _interface_of(block: Block) -> Interface:
    link, _, snap = block.unpack("HHI")
    ticks, offset = 1_000_000, 0
    for code, value in _options_of(block, 8):
        if code == OPTION_RESOLUTION and len(value) == 1:
            ticks = 2 ** (value[0] & 0x7F) if value[0] & 0x80 else 10 ** value[0]
        elif code == OPTION_OFFSET and len(value) == 8:
            offset = struct.unpack(block.order + "q", value)[0]
    return Interface(link, snap, ticks, offset)


def _options_of(block: Block, at: int) -> Iterator[tuple[int, bytes]]:
    while at + 4 <= len(block.body):
        code, length = struct.unpack_from(block.order + "HH", block.body, at)
        if code == 0:
            return
        yield code, block.body[at + 4 : at + 4 + length]
        at += 4 + (length + 3) // 4 * 4


def _record_of(block: Block, interfaces: list[Interface], before: tuple[int, int]) -> Record:
    """The packet of a block; a simple packet has no time, and takes the one before it."""
    if block.kind == SIMPLE_PACKET:
        (on_the_wire,) = block.unpack("I")
        interface = _interface_at(block, interfaces, 0)
        captured = min(on_the_wire, interface.snap or on_the_wire, len(block.body) - 4)
        return Record(interface.link, *before, block.body[4 : 4 + captured], on_the_wire - captured)
    number, high, low, captured, on_the_wire = block.unpack("IIIII")
    if block.kind == OLD_PACKET:
        (number,) = block.unpack("H")
    interface = _interface_at(block, interfaces, number)
    if len(block.body) - 20 < captured:
        raise Fault(f"byte {block.at}: a packet of {captured} bytes does not fit its block")
    seconds, nanoseconds = interface.time(high << 32 | low)
    if not 0 <= seconds < 2**32:
        raise Fault(f"byte {block.at}: a time of {seconds} seconds does not fit a pcap file")
    return Record(interface.link, seconds, nanoseconds, block.body[20 : 20 + captured], on_the_wire - captured)


def _interface_at(block: Block, interfaces: list[Interface], number: int) -> Interface:
    if number >= len(interfaces):
        raise Fault(f"byte {block.at}: a packet of interface {number}, which no block before it describes")
    return interfaces[number]
