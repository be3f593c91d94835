"""The frames of a capture in words, and what a ladder shows of a segment (RFC 9293, 3.1)."""

from __future__ import annotations

import struct
from dataclasses import dataclass
from pathlib import Path

from captures.capture import NANOSECONDS, Fault
from captures.connections import colons, dotted
from captures.packets import ACK, ETHERNET_HEADER, FIN, ICMP, PSH, RST, SYN, UDP, URG, Kind, Packet, Segment, kind_of
from captures.pcap import read_pcap

FLAG_NAMES = ((FIN, "FIN"), (SYN, "SYN"), (RST, "RST"), (PSH, "PSH"), (URG, "URG"), (ACK, "ACK"))
ARP_TYPE = b"\x08\x06"


@dataclass(frozen=True)
class Record:
    """One frame of a capture with its timestamp in milliseconds."""

    tick: int
    frame: bytes


def read_capture(path: Path) -> list[Record]:
    """The records of a capture file in the classic form, in their order."""
    try:
        capture = read_pcap(path.read_bytes())
    except Fault as fault:
        raise Fault(f"{path}: {fault}") from None
    fractions = 1_000_000 if capture.head.magic == NANOSECONDS else 1000
    return [Record(record.seconds * 1000 + record.fraction // fractions, record.frame) for record in capture.records]


def hardware_source(frame: bytes) -> bytes | None:
    """The Ethernet source, where the frame has a whole Ethernet header."""
    return frame[6:12] if len(frame) >= ETHERNET_HEADER else None


def segment_of(frame: bytes) -> Segment | None:
    """The TCP segment of a frame, whatever its checksums are, or None."""
    return Segment.of(Packet.of(frame)) if kind_of(frame) is Kind.PACKET else None


def flag_names(segment: Segment) -> str:
    """The flags in the order in which they are usually written, joined by `|`."""
    return "|".join(name for bit, name in FLAG_NAMES if segment.flags & bit) or "no flags"


def tail(segment: Segment) -> str:
    """What stands behind the numbers: window, length and greatest segment, as far as they say something."""
    words = [f"win {segment.window}"]
    if segment.body:
        words.append(f"len {len(segment.body)}")
    mss = segment.mss()
    if mss is not None:
        words.append(f"mss {mss}")
    return " ".join(words)


def describe_arp(packet: bytes) -> str:
    """An ARP packet (RFC 826) in words."""
    if len(packet) < 28:
        return f"ARP, {len(packet)} bytes"
    sender, target = dotted(packet[14:18]), dotted(packet[24:28])
    operation = int.from_bytes(packet[6:8], "big")
    if operation == 1:
        return f"ARP {sender} asks for {target}"
    if operation == 2:
        return f"ARP {sender} is at {colons(packet[8:14])}"
    return f"ARP operation {operation}"


def describe_packet(packet: Packet) -> str:
    """An IPv4 packet that is no whole TCP segment, in words."""
    payload = packet.payload
    if packet.protocol == ICMP and len(payload) >= 8:
        names = {8: "request", 0: "reply"}
        return f"ICMP echo {names[payload[0]]}" if payload[0] in names else f"ICMP type {payload[0]}"
    if packet.protocol == UDP and len(payload) >= 8:
        source, destination, length = struct.unpack_from(">HHH", payload)
        return f"UDP {source} > {destination} len {max(0, length - 8)}"
    return f"IPv4 protocol {packet.protocol}, {len(payload)} bytes"


def describe_segment(segment: Segment) -> str:
    """A segment without a connection: its ports, its length, and its numbers as they stand on the wire."""
    words = [f"{segment.source_port} > {segment.destination_port}", flag_names(segment)]
    words.append(f"seq {segment.sequence:08x}")
    if segment.flags & ACK:
        words.append(f"ack {segment.acknowledgement:08x}")
    if segment.body:
        words.append(f"len {len(segment.body)}")
    return " ".join(words)


def describe(frame: bytes) -> str:
    """Any frame in words, with numbers as they stand on the wire."""
    if kind_of(frame) is Kind.PACKET:
        packet = Packet.of(frame)
        segment = Segment.of(packet)
        return describe_packet(packet) if segment is None else describe_segment(segment)
    if frame[12:14] == ARP_TYPE:
        return describe_arp(frame[ETHERNET_HEADER:])
    return f"{len(frame)} bytes"
