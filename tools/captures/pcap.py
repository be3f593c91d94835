"""pcap files (docs/CAPTURES.md) in both orders of bytes and both resolutions."""
from __future__ import annotations

import struct
from typing import Iterator

from captures.capture import MICROSECONDS, NANOSECONDS, Capture, Fault, Head, Record

FILE_HEADER = 24
RECORD_HEADER = 16


def read_pcap(data: bytes) -> Capture:
    """The capture that a pcap file is, or the first fault in it."""
    head = _head_of(data)
    return Capture(head, list(_records_of(data, head)))


def capture_bytes(capture: Capture) -> bytes:
    """The capture as a pcap file."""
    head = capture.head
    parts = [struct.pack(head.order + "IHHIIIHH", head.magic, 2, 4, head.zone, head.accuracy, head.snap, *_link_field(head))]
    for record in capture.records:
        length = len(record.frame)
        parts.append(struct.pack(head.order + "IIII", record.seconds, record.fraction, length, length + record.missing))
        parts.append(record.frame)
    return b"".join(parts)


def _link_field(head: Head) -> tuple[int, int]:
    """The two halves of the last field of a file's header, in the order in which they stand."""
    halves = (head.flags, head.link)
    return halves if head.order == ">" else halves[::-1]


def _head_of(data: bytes) -> Head:
    orders = {struct.pack(order + "I", magic): (order, magic) for order in "<>" for magic in (MICROSECONDS, NANOSECONDS)}
    if len(data) < 4:
        raise Fault(f"byte 0: {len(data)} bytes are no capture")
    if data[:4] not in orders:
        raise Fault(f"byte 0: {data[:4].hex()} begins neither pcap nor pcapng")
    if len(data) < FILE_HEADER:
        raise Fault(f"byte 0: the file's header has {FILE_HEADER} bytes, {len(data)} are there")
    order, magic = orders[data[:4]]
    major, minor, zone, accuracy, snap, link = struct.unpack_from(order + "HHIIII", data, 4)
    if (major, minor) != (2, 4):
        raise Fault(f"byte 4: version {major}.{minor} is not 2.4")
    return Head(order, magic, zone, accuracy, snap, link & 0xFFFF, link >> 16)


def _records_of(data: bytes, head: Head) -> Iterator[Record]:
    at, number = FILE_HEADER, 0
    while at < len(data):
        there = len(data) - at
        if there < RECORD_HEADER:
            raise Fault(f"byte {at}: record {number} is cut: its header has {RECORD_HEADER} bytes, {there} are there")
        seconds, fraction, length, on_the_wire = struct.unpack_from(head.order + "IIII", data, at)
        if there - RECORD_HEADER < length:
            raise Fault(f"byte {at}: record {number} is cut: its frame has {length} bytes, {there - RECORD_HEADER} are there")
        begin = at + RECORD_HEADER
        yield Record(head.link, seconds, fraction, data[begin : begin + length], on_the_wire - length)
        at, number = begin + length, number + 1
