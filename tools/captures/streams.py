"""The streams of bytes that the servers of a prepared capture sent, and whether those of the replies of a play are the same."""
from __future__ import annotations

from dataclasses import dataclass, field

from captures.capture import Capture
from captures.connections import Connection, Endpoint, servers
from captures.packets import FIN, SYN, Segment
from captures.preparation import segments_of


@dataclass
class Stream:
    """What one side of a connection sent: `ahead` holds what stands behind a gap, by its place."""

    initial: int
    octets: bytearray = field(default_factory=bytearray)
    ahead: dict[int, bytes] = field(default_factory=dict)
    end: int | None = None

    @property
    def is_ended(self) -> bool:
        """Whether all octets up to a FIN are there."""
        return self.end == len(self.octets)

    def take(self, segment: Segment) -> None:
        """Takes a segment's octets; of those that come again the first count."""
        place = (segment.sequence - self.initial - 1) % 2**32
        if place >= 2**31:
            place -= 2**32
        if segment.flags & FIN:
            self.end = place + len(segment.body)
        if segment.body:
            self.ahead.setdefault(place, segment.body)
            self._join()

    def _join(self) -> None:
        for place in sorted(self.ahead):
            if place > len(self.octets):
                return
            self.octets += self.ahead.pop(place)[len(self.octets) - place :]


@dataclass(frozen=True)
class Comparison:
    """The stream of a connection as it was recorded, and as it stands in the replies; None where it isn't there."""

    client: Endpoint
    recorded: Stream
    replied: Stream | None

    @property
    def is_equal(self) -> bool:
        """Whether the same octets were sent, and the streams ended alike."""
        replied = self.replied
        return replied is not None and replied.octets == self.recorded.octets and replied.is_ended == self.recorded.is_ended

    def __str__(self) -> str:
        recorded, replied = self.recorded, self.replied
        if replied is None:
            return f"{self.client}: not in the replies"
        both = zip(recorded.octets, replied.octets)
        same = next((place for place, (one, other) in enumerate(both) if one != other), min(len(recorded.octets), len(replied.octets)))
        ends = ["ended" if stream.is_ended else "open" for stream in (recorded, replied)]
        told = f"{self.client}: {same} of {len(recorded.octets)} bytes are the same"
        return f"{told}, {ends[0]}" if self.is_equal else f"{told}; {len(replied.octets)} in the replies; {ends[0]} and {ends[1]}"


def compare(recorded: Capture, replies: Capture) -> list[Comparison]:
    """The connections of the server that answered the most, each with its two streams."""
    sent = server_streams(recorded)
    busiest = servers([connection for connection, _ in sent])
    server = busiest[0][0] if busiest else None
    replied: dict[Endpoint, list[Stream]] = {}
    for connection, stream in server_streams(replies):
        if connection.server.endpoint == server:
            replied.setdefault(connection.client.endpoint, []).append(stream)
    found = []
    for connection, stream in sent:
        if connection.server.endpoint == server:
            others = replied.get(connection.client.endpoint, [])
            found.append(Comparison(connection.client.endpoint, stream, others.pop(0) if others else None))
    return found


def server_streams(capture: Capture) -> list[tuple[Connection, Stream]]:
    """What the servers of a prepared capture sent, connection by connection."""
    streams: dict[int, tuple[Connection, Stream]] = {}
    for segment, connection in segments_of(capture):
        initial = connection.server.initial
        if initial is None or connection.sender(segment) is connection.client:
            continue
        _, stream = streams.setdefault(id(connection), (connection, Stream(initial)))
        if not segment.flags & SYN:
            stream.take(segment)
    return list(streams.values())
