"""Ethernet frames with IPv4 packets of TCP, UDP and ICMP: what a frame is, its checksums, and TCP segments to be changed."""
from __future__ import annotations

import struct
from dataclasses import dataclass
from enum import Enum

ETHERNET_HEADER = 14
LONGEST_FRAME = 1_514
ICMP, TCP, UDP = 1, 6, 17
FIN, SYN, RST, PSH, ACK, URG, CWR = 0x01, 0x02, 0x04, 0x08, 0x10, 0x20, 0x80
VLAN_TYPES = (0x8100, 0x88A8, 0x9100)
OPTION_END, OPTION_NONE, OPTION_MSS, OPTION_SCALE = 0, 1, 2, 3
GREATEST_SHIFT = 14


class Kind(Enum):
    """What a frame is to a preparation; only a `PACKET` is looked into."""

    PACKET = "IPv4"
    VLAN = "VLAN"
    IPV6 = "IPv6"
    FRAGMENT = "fragment"
    CUT = "cut by the recorder"
    WRONG = "wrong checksum"
    OTHER = "other"


class Sum(Enum):
    """A checksum: right, left for the card to finish, or wrong."""

    RIGHT = 0
    UNFINISHED = 1
    WRONG = 2


def ones_sum(data: bytes) -> int:
    """The one's complement sum of the 16-bit words of `data` (RFC 1071); 0 for zeros alone, and else 1 to 65535."""
    padded = data + b"\0" if len(data) % 2 else data
    number = int.from_bytes(padded, "big")
    return number % 0xFFFF or (0xFFFF if number else 0)


def checksum(data: bytes) -> int:
    """The checksum of `data`, whose own field is 0."""
    return 0xFFFF ^ ones_sum(data)


def kind_of(frame: bytes) -> Kind:
    """What a frame is."""
    if len(frame) < ETHERNET_HEADER:
        return Kind.OTHER
    (ether_type,) = struct.unpack_from(">H", frame, 12)
    if ether_type in VLAN_TYPES:
        return Kind.VLAN
    if ether_type == 0x86DD:
        return Kind.IPV6
    if ether_type != 0x0800 or len(frame) < ETHERNET_HEADER + 20 or frame[14] >> 4 != 4:
        return Kind.OTHER
    return _kind_of_packet(frame)


def _kind_of_packet(frame: bytes) -> Kind:
    header = (frame[14] & 15) * 4
    total = total_length(frame)
    if header < 20 or header > total:
        return Kind.OTHER
    if struct.unpack_from(">H", frame, 20)[0] & 0x3FFF:
        return Kind.FRAGMENT
    return Kind.CUT if ETHERNET_HEADER + total > len(frame) else Kind.PACKET


def total_length(frame: bytes) -> int:
    """The length of a frame's packet. A card that is to cut the packet may find 0 there: then it reaches to the frame's end."""
    written = int.from_bytes(frame[16:18], "big")
    return len(frame) - ETHERNET_HEADER if written == 0 and len(frame) > LONGEST_FRAME else written


@dataclass(frozen=True)
class Packet:
    """A whole IPv4 packet in a frame; `trailer` is what stands behind it."""

    ethernet: bytes
    header: bytes
    payload: bytes
    trailer: bytes

    @classmethod
    def of(cls, frame: bytes) -> Packet:
        """The packet of a frame that is `Kind.PACKET`."""
        body = ETHERNET_HEADER + (frame[14] & 15) * 4
        end = ETHERNET_HEADER + total_length(frame)
        return cls(frame[:ETHERNET_HEADER], frame[ETHERNET_HEADER:body], frame[body:end], frame[end:])

    @property
    def protocol(self) -> int:
        """The number of the protocol of the payload."""
        return self.header[9]

    @property
    def source(self) -> bytes:
        """The address of the sender."""
        return self.header[12:16]

    @property
    def destination(self) -> bytes:
        """The address of the receiver."""
        return self.header[16:20]

    def frame(self) -> bytes:
        """The frame, with a right header checksum and a right length, or 0 where that does not fit its field."""
        total = len(self.header) + len(self.payload)
        length = struct.pack(">H", total if total <= 0xFFFF else 0)
        header = self.header[:2] + length + self.header[4:10] + b"\0\0" + self.header[12:]
        header = header[:10] + struct.pack(">H", checksum(header)) + header[12:]
        return self.ethernet + header + self.payload + self.trailer

    def pseudo_header(self, length: int) -> bytes:
        """What TCP and UDP sum before their own bytes. The length has four octets, since a joined packet may have more than 65,535."""
        return self.header[12:20] + struct.pack(">BBI", 0, self.protocol, length)

    def header_sum(self) -> Sum:
        """The state of the header's checksum. Where a card writes it, 0 stands there."""
        if ones_sum(self.header) == 0xFFFF:
            return Sum.RIGHT
        return Sum.UNFINISHED if self.header[10:12] == b"\0\0" else Sum.WRONG

    def summed(self) -> tuple[int, bytes, bytes] | None:
        """The place of the payload's checksum, what is summed before the payload, and the payload; or None, where there is no sum."""
        if self.protocol == TCP and len(self.payload) >= 20:
            return 16, self.pseudo_header(len(self.payload)), self.payload
        if self.protocol == ICMP and len(self.payload) >= 8:
            return 2, b"", self.payload
        if self.protocol == UDP and len(self.payload) >= 8:
            (length,) = struct.unpack_from(">H", self.payload, 4)
            if 8 <= length <= len(self.payload) and self.payload[6:8] != b"\0\0":
                return 6, self.pseudo_header(length), self.payload[:length]
        return None

    def payload_sum(self) -> Sum:
        """The state of the payload's checksum. Where a card is to finish it, the sum of the pseudo header stands there, or 0."""
        summed = self.summed()
        if summed is None:
            return Sum.RIGHT
        at, before, payload = summed
        if ones_sum(before + payload) == 0xFFFF:
            return Sum.RIGHT
        (written,) = struct.unpack_from(">H", payload, at)
        begun = (0, ones_sum(before), ones_sum(self.pseudo_header(0))) if before else (0,)
        return Sum.UNFINISHED if written in begun else Sum.WRONG

    def finished(self) -> Packet:
        """The packet with a right payload checksum."""
        summed = self.summed()
        if summed is None:
            return self
        at, before, payload = summed
        right = checksum(before + payload[:at] + b"\0\0" + payload[at + 2 :])
        if self.protocol == UDP:
            right = right or 0xFFFF
        whole = self.payload[:at] + struct.pack(">H", right) + self.payload[at + 2 :]
        return Packet(self.ethernet, self.header, whole, self.trailer)


@dataclass(frozen=True)
class Segment:
    """A TCP segment in its packet. `reserved` are the four bits behind the data offset."""

    packet: Packet
    source_port: int
    destination_port: int
    sequence: int
    acknowledgement: int
    reserved: int
    flags: int
    window: int
    urgent: int
    options: bytes
    body: bytes

    @classmethod
    def of(cls, packet: Packet) -> Segment | None:
        """The segment of a packet, or None where it has none."""
        payload = packet.payload
        if packet.protocol != TCP or len(payload) < 20:
            return None
        source, destination, sequence, acknowledgement, offset, flags, window, _, urgent = struct.unpack_from(">HHIIBBHHH", payload)
        header = (offset >> 4) * 4
        if not 20 <= header <= len(payload):
            return None
        rest = (payload[20:header], payload[header:])
        return cls(packet, source, destination, sequence, acknowledgement, offset & 15, flags, window, urgent, *rest)

    def frame(self) -> bytes:
        """The segment's frame, with right lengths and checksums."""
        offset = (20 + len(self.options)) // 4 << 4 | self.reserved
        ports = (self.source_port, self.destination_port)
        numbers = (self.sequence, self.acknowledgement, offset, self.flags, self.window, 0, self.urgent)
        payload = struct.pack(">HHIIBBHHH", *ports, *numbers) + self.options + self.body
        packet = self.packet
        return Packet(packet.ethernet, packet.header, payload, packet.trailer).finished().frame()

    def headers(self) -> int:
        """The octets of the frame before the body."""
        return ETHERNET_HEADER + len(self.packet.header) + 20 + len(self.options)

    def option(self, kind: int, length: int) -> bytes | None:
        """The value of the first option of that kind and length."""
        for at in self._options():
            if self.options[at] == kind and self.options[at + 1] == length:
                return self.options[at + 2 : at + length]
        return None

    def mss(self) -> int | None:
        """The MSS that the segment announces."""
        value = self.option(OPTION_MSS, 4)
        return None if value is None else int.from_bytes(value, "big")

    def shift(self) -> int | None:
        """The shift of the window scale option; above 14 it counts as 14 (RFC 7323, section 2.3)."""
        value = self.option(OPTION_SCALE, 3)
        return None if value is None else min(value[0], GREATEST_SHIFT)

    def options_without_scale(self) -> bytes:
        """The options with octets that say nothing in the place of the window scale option."""
        options = bytearray(self.options)
        for at in self._options():
            if options[at] == OPTION_SCALE and options[at + 1] == 3:
                options[at : at + 3] = bytes([OPTION_NONE]) * 3
        return bytes(options)

    def _options(self) -> list[int]:
        """The places of the options that have a length."""
        places, at = [], 0
        while at < len(self.options) and self.options[at] != OPTION_END:
            if self.options[at] == OPTION_NONE:
                at += 1
                continue
            length = self.options[at + 1] if at + 1 < len(self.options) else 0
            if length < 2 or at + length > len(self.options):
                break
            places.append(at)
            at += length
        return places
