"""The TCP connections of a capture: who opened them to whom, and what both sides announced."""
from __future__ import annotations

from collections import Counter
from dataclasses import dataclass, field

from captures.packets import ACK, RST, SYN, Segment

DEFAULT_MSS = 536


@dataclass(frozen=True)
class Endpoint:
    """An address with a port."""

    address: bytes
    port: int

    def __str__(self) -> str:
        return f"{dotted(self.address)}:{self.port}"


def dotted(address: bytes) -> str:
    """An IPv4 address as text."""
    return ".".join(map(str, address))


def colons(hardware: bytes) -> str:
    """A hardware address as text."""
    return hardware.hex(":")


@dataclass
class Side:
    """One side of a connection. What stands on its SYN is None until that is seen."""

    endpoint: Endpoint
    hardware: bytes = b""
    initial: int | None = None
    shift: int | None = None
    mss: int | None = None

    def opened(self, segment: Segment) -> None:
        """Takes what the side's SYN says; of repeated ones the last counts."""
        self.hardware = segment.packet.ethernet[6:12]
        self.initial = segment.sequence
        self.shift = segment.shift()
        self.mss = segment.mss() or DEFAULT_MSS


@dataclass
class Connection:
    """A connection. `options` counts the octets of options that the server's data segments carry."""

    client: Side
    server: Side
    options: Counter[int] = field(default_factory=Counter)

    @property
    def is_answered(self) -> bool:
        """Whether the server's SYN-ACK is there."""
        return self.server.initial is not None

    @property
    def is_opened(self) -> bool:
        """Whether both sides' SYNs are there."""
        return self.client.initial is not None and self.is_answered

    @property
    def is_scaled(self) -> bool:
        """Whether both sides announced window scaling, so that it is on (RFC 7323, section 2.2)."""
        return self.client.shift is not None and self.server.shift is not None

    def sender(self, segment: Segment) -> Side:
        """The side that sent a segment."""
        return self.server if source_of(segment) == self.server.endpoint else self.client

    def receiver(self, segment: Segment) -> Side:
        """The side that a segment goes to."""
        return self.client if self.sender(segment) is self.server else self.server

    def take(self, segment: Segment) -> None:
        """Takes what a segment of the connection says of it."""
        if not segment.flags & SYN:
            if segment.body and self.sender(segment) is self.server:
                self.options[len(segment.options)] += 1
        elif not segment.flags & ACK:
            self.client.opened(segment)
        elif self.client.initial is None or segment.acknowledgement == (self.client.initial + 1) % 2**32:
            self.server.opened(segment)


def source_of(segment: Segment) -> Endpoint:
    """Where a segment comes from."""
    return Endpoint(segment.packet.source, segment.source_port)


def destination_of(segment: Segment) -> Endpoint:
    """Where a segment goes to."""
    return Endpoint(segment.packet.destination, segment.destination_port)


class Connections:
    """All connections of a capture, in their order of opening."""

    def __init__(self) -> None:
        self.all: list[Connection] = []
        self.living: dict[frozenset[Endpoint], Connection] = {}

    def take(self, segment: Segment) -> Connection | None:
        """The connection of the next segment, or None where its opening is not in the capture."""
        flow = frozenset((source_of(segment), destination_of(segment)))
        connection = self.living.get(flow)
        if segment.flags & SYN and not segment.flags & RST and self._opens(segment, connection):
            connection = self._opened_by(segment)
            self.living[flow] = connection
            self.all.append(connection)
        if connection is not None:
            connection.take(segment)
        return connection

    @staticmethod
    def _opens(segment: Segment, living: Connection | None) -> bool:
        """Whether a SYN, with ACK or without, is the first sign of a connection."""
        if living is None:
            return True
        if segment.flags & ACK:
            return living.client.initial is None and segment.sequence != living.server.initial
        return source_of(segment) != living.client.endpoint or segment.sequence != living.client.initial

    @staticmethod
    def _opened_by(segment: Segment) -> Connection:
        source, destination = Side(source_of(segment)), Side(destination_of(segment))
        return Connection(destination, source) if segment.flags & ACK else Connection(source, destination)


def servers(connections: list[Connection]) -> list[tuple[Endpoint, list[Connection]]]:
    """The endpoints that sent SYN-ACKs with their connections, those with the most first."""
    found: dict[Endpoint, list[Connection]] = {}
    for connection in connections:
        if connection.is_answered:
            found.setdefault(connection.server.endpoint, []).append(connection)
    return sorted(found.items(), key=lambda item: -len(item[1]))
