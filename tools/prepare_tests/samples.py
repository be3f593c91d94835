"""Frames and captures for the tests, made without the code that is tested."""
from __future__ import annotations

import struct
from pathlib import Path

from captures.capture import MICROSECONDS, Capture, Head, Record

TOP = Path(__file__).resolve().parents[2]
CLIENT, SERVER = "10.0.0.2", "10.0.0.1"
CLIENT_PORT, SERVER_PORT = 40_000, 7
HARDWARE = {CLIENT: bytes.fromhex("020000000002"), SERVER: bytes.fromhex("020000000001")}
FIN, SYN, RST, PSH, ACK, URG, CWR = 0x01, 0x02, 0x04, 0x08, 0x10, 0x20, 0x80
HEAD = Head("<", MICROSECONDS, 0, 0, 65_535, 1, 0)
MSS_1460 = bytes.fromhex("020405b4")
TIMESTAMPS = bytes.fromhex("0101080a0000000100000002")


def octets(address: str) -> bytes:
    """The four octets of an address."""
    return bytes(map(int, address.split(".")))


def folded(data: bytes) -> int:
    """The one's complement sum of 16-bit words, with the carries put in at the bottom."""
    padded = data + bytes(len(data) % 2)
    total: int = sum(struct.unpack(f">{len(padded) // 2}H", padded))
    while total >> 16:
        total = (total & 0xFFFF) + (total >> 16)
    return total


def pseudo(source: str, destination: str, protocol: int, length: int) -> bytes:
    """The pseudo header of TCP and UDP."""
    return octets(source) + octets(destination) + struct.pack(">BBH", 0, protocol, length)


def ip_frame(payload: bytes, protocol: int, source: str = CLIENT, destination: str = SERVER, fragment: int = 0x4000) -> bytes:
    """A frame with an IPv4 packet."""
    header = struct.pack(">BBHHHBBH", 0x45, 0, 20 + len(payload), 7, fragment, 64, protocol, 0) + octets(source) + octets(destination)
    header = header[:10] + struct.pack(">H", 0xFFFF ^ folded(header)) + header[12:]
    return HARDWARE[destination] + HARDWARE[source] + b"\x08\x00" + header + payload


def tcp(
    sequence: int,
    acknowledgement: int = 0,
    flags: int = ACK,
    window: int = 63,
    options: bytes = b"",
    body: bytes = b"",
    from_server: bool = False,
    port: int = CLIENT_PORT,
    urgent: int = 0,
    unfinished: bool = False,
) -> bytes:
    """A frame with a TCP segment, from the client unless it is from the server."""
    source, destination = (SERVER, CLIENT) if from_server else (CLIENT, SERVER)
    ports = (SERVER_PORT, port) if from_server else (port, SERVER_PORT)
    offset = (20 + len(options)) << 2
    payload = struct.pack(">HHIIBBHHH", *ports, sequence % 2**32, acknowledgement % 2**32, offset, flags, window, 0, urgent) + options + body
    before = pseudo(source, destination, 6, len(payload))
    right = folded(before) if unfinished else 0xFFFF ^ folded(before + payload)
    return ip_frame(payload[:16] + struct.pack(">H", right) + payload[18:], 6, source, destination)


def scale(shift: int) -> bytes:
    """The options of a SYN: the MSS, and window scaling."""
    return MSS_1460 + bytes([1, 3, 3, shift])


def opening(client: bytes = MSS_1460, server: bytes = MSS_1460, initial: int = 1_000, port: int = CLIENT_PORT) -> list[bytes]:
    """The three frames of a handshake with these options; the server's number is 5000."""
    return [
        tcp(initial, flags=SYN, window=64_240, options=client, port=port),
        tcp(5_000, initial + 1, flags=SYN | ACK, window=65_160, options=server, from_server=True, port=port),
        tcp(initial + 1, 5_001, port=port),
    ]


def capture_of(frames: list[bytes], link: int = 1) -> Capture:
    """A capture whose frames are a millisecond apart."""
    return Capture(Head("<", MICROSECONDS, 0, 0, 65_535, link, 0), [Record(link, 1, 1_000 * at, frame, 0) for at, frame in enumerate(frames)])


def window_of(frame: bytes) -> int:
    """The window of a segment."""
    return int.from_bytes(frame[48:50], "big")


def sequence_of(frame: bytes) -> int:
    """The sequence number of a segment."""
    return int.from_bytes(frame[38:42], "big")


def flags_of(frame: bytes) -> int:
    """The flags of a segment."""
    return frame[47]


def body_of(frame: bytes) -> bytes:
    """The body of a segment."""
    return frame[34 + (frame[46] >> 4) * 4 : 14 + struct.unpack_from(">H", frame, 16)[0]]


def sums_are_right(frame: bytes) -> bool:
    """Whether the IPv4 header and the TCP segment of a frame sum to all ones."""
    length = struct.unpack_from(">H", frame, 16)[0] - 20
    before = frame[26:34] + struct.pack(">BBH", 0, 6, length)
    return folded(frame[14:34]) == 0xFFFF and folded(before + frame[34 : 34 + length]) == 0xFFFF
