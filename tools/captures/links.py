"""Link types: a frame of another one than Ethernet gets an Ethernet header."""
from __future__ import annotations

import struct

from captures.capture import Fault

ETHERNET = 1
NAMES = {ETHERNET: "Ethernet", 12: "raw IP", 101: "raw IP", 113: "Linux cooked v1", 228: "raw IPv4", 276: "Linux cooked v2"}
IPV4 = 0x0800
ARP = 0x0806
IPV6 = 0x86DD
BROADCAST = b"\xff" * 6


def ethernet_frame(link: int, frame: bytes) -> bytes:
    """The frame with an Ethernet header in the place of the header of its link type."""
    if link == ETHERNET:
        return frame
    demand_known(link)
    kind, packet = _type_and_packet(link, frame)
    source, destination = _addresses(kind, packet)
    return destination + source + struct.pack(">H", kind) + packet


def demand_known(link: int) -> None:
    """Tells a link type that is not known as a fault."""
    if link not in NAMES:
        known = ", ".join(sorted(set(NAMES.values())))
        raise Fault(f"link type {link} is none of {known}")


def hardware_address(address: bytes, opens: bool = False) -> bytes:
    """The hardware address that stands for an IPv4 address: 02:00 and its four octets, or 02:01 for the side that opens a connection to itself."""
    return bytes([2, opens]) + address


def _type_and_packet(link: int, frame: bytes) -> tuple[int, bytes]:
    if link == 113:
        _demand(frame, 16)
        return struct.unpack_from(">H", frame, 14)[0], frame[16:]
    if link == 276:
        _demand(frame, 20)
        return struct.unpack_from(">H", frame)[0], frame[20:]
    version = frame[0] >> 4 if frame else 4
    return IPV6 if version == 6 else IPV4, frame


def _demand(frame: bytes, header: int) -> None:
    if len(frame) < header:
        raise Fault(f"its cooked header has {header} bytes, {len(frame)} are there")


def _addresses(kind: int, packet: bytes) -> tuple[bytes, bytes]:
    """The hardware addresses of the sender and of the receiver."""
    if kind == IPV4 and len(packet) >= 20:
        return hardware_address(packet[12:16]), hardware_address(packet[16:20])
    if kind == ARP and len(packet) >= 28:
        return hardware_address(packet[14:18]), BROADCAST
    return hardware_address(bytes(4)), hardware_address(bytes(4))
