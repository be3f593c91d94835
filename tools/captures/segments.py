"""TCP segments that are written, with right checksums."""
from __future__ import annotations

import struct
from typing import Iterable, NamedTuple

from .capture import MICROSECONDS, Capture, Head, Record
from .packets import SYN, checksum
from .pcap import capture_bytes

ETHERNET = 1
SERVER_MAC, PEER_MAC = bytes.fromhex("020000000001"), bytes.fromhex("020000000002")


class End(NamedTuple):
    """An end of a connection: an address and a port."""

    address: bytes
    port: int


SERVER = End(bytes([161, 142, 100, 80]), 1766)
LOCAL = """[local]
mac = "02:00:00:00:00:01"
ip = "161.142.100.80"
port = 1766
"""


def frame_of(sender: End, receiver: End, flags: int, seq: int, ack: int, window: int, body: bytes = b"") -> bytes:
    """A TCP segment in an IPv4 packet in an Ethernet frame, with right checksums; SYN carries a maximum segment size."""
    options = b"\x02\x04\x05\xb4" if flags & SYN else b""
    offset = (20 + len(options)) // 4 << 12
    segment = struct.pack(">HHIIHHHH", sender.port, receiver.port, seq, ack, offset | flags, window, 0, 0) + options + body
    pseudo = sender.address + receiver.address + struct.pack(">HH", 6, len(segment))
    segment = segment[:16] + struct.pack(">H", checksum(pseudo + segment)) + segment[18:]
    header = struct.pack(">BBHHHBBH", 0x45, 0, 20 + len(segment), 0, 0x4000, 64, 6, 0) + sender.address + receiver.address
    header = header[:10] + struct.pack(">H", checksum(header)) + header[12:]
    macs = PEER_MAC + SERVER_MAC if sender == SERVER else SERVER_MAC + PEER_MAC
    return macs + b"\x08\x00" + header + segment


def capture_of(frames: Iterable[bytes]) -> bytes:
    """A capture file of these frames, all at the time 0."""
    head = Head("<", MICROSECONDS, zone=0, accuracy=0, snap=65_535, link=ETHERNET, flags=0)
    return capture_bytes(Capture(head, [Record(ETHERNET, 0, 0, frame, 0) for frame in frames]))
