"""What a preparation prints: its report, a configuration and a script."""
from __future__ import annotations

from collections import Counter
from typing import Iterable, Iterator

from captures.capture import Capture, Fault
from captures.connections import Connection, Endpoint, colons, dotted, servers
from captures.packets import Kind
from captures.preparation import Report, segments_of

NAMED = 5
MOST_RECORDS = 262_144
MOST_BYTES = 67_108_864
LEAST_MSS, GREATEST_MSS = 64, 1_460
LEFT = {Kind.VLAN: "VLAN", Kind.IPV6: "IPv6", Kind.FRAGMENT: "fragments", Kind.CUT: "cut by the recorder"}


def count(number: int, what: str) -> str:
    """A number with its noun, as "1 record" and "2 records"."""
    return f"{number} {what}" if number == 1 else f"{number} {what}s"


def numbers(records: list[int]) -> str:
    """The first of some record numbers, as "records 3, 5 and 7 more"."""
    shown = ", ".join(map(str, records[:NAMED]))
    more = len(records) - NAMED
    return ("record " if len(records) == 1 else "records ") + shown + (f" and {more} more" if more > 0 else "")


def report_lines(report: Report, length: int) -> Iterator[str]:
    """What was changed and what was left, in a few lines, where the prepared capture has so many bytes."""
    yield count(report.records, "record") + (f", {report.written} written" if report.written != report.records else "")
    yield from _link_lines(report)
    yield from _change_lines(report)
    if not (report.changed() or report.links or report.flags):
        yield "nothing to change"
    yield from _left_lines(report)
    if report.written > MOST_RECORDS or length > MOST_BYTES:
        yield f"too much for ix: it takes {MOST_RECORDS:,} records and {MOST_BYTES:,} bytes, and these are {report.written:,} and {length:,}"


def _link_lines(report: Report) -> Iterator[str]:
    if report.flags:
        yield f"flags {report.flags:04x} above the link type are taken out"
    if report.links:
        yield f"{' and '.join(sorted(report.links))}: Ethernet headers are put in the place of that"
    hosts = [f"{dotted(address)} is {colons(hardware)}" for address, hardware in report.hosts.items()]
    if hosts:
        yield "hosts: " + ", ".join(hosts[:NAMED]) + (f" and {len(hosts) - NAMED} more" if len(hosts) > NAMED else "")


def _change_lines(report: Report) -> Iterator[str]:
    if report.apart:
        yield f"one hardware address on both sides of {count(len(report.apart), 'segment')}: " + (
            "it is 02:01 and the IPv4 address for the side that opened the connection, 02:00 for the other"
        )
    if report.scales or report.windows:
        yield f"window scaling of {count(report.scaled, 'connection')}: {count(len(report.windows), 'window')} written in bytes, " + (
            f"{count(len(report.scales), 'option')} taken out"
        )
    if report.cut:
        yield f"{count(len(report.cut), 'joined frame')} cut into {count(report.pieces, 'segment')}"
    if report.finished:
        sums = ", ".join(f"{number} {name}" for name, number in sorted(report.finished_sums.items()))
        yield f"unfinished checksums of {count(len(report.finished), 'record')} finished: {sums}"


def _left_lines(report: Report) -> Iterator[str]:
    left = [f"{report.kinds[kind]} {name}" for kind, name in LEFT.items() if report.kinds[kind]]
    if left:
        yield "left as they are: " + ", ".join(left)
    if report.wrong:
        yield f"left as they are, for a checksum that is wrong and not unfinished: {numbers(report.wrong)}"
    if report.unopened:
        yield f"the windows of {count(report.unopened, 'segment')} are left, since the SYN or the SYN-ACK is not in the capture"
    if report.long:
        yield f"longer than ix takes (2,048 bytes): {numbers(report.long)}"


def configuration(prepared: Capture, application: str) -> str:
    """The configuration of a prepared capture's server side: the endpoint that answered the most connections."""
    connections = {id(connection): connection for _, connection in segments_of(prepared)}
    found = servers(list(connections.values()))
    if not found:
        raise Fault("no SYN-ACK: the capture has no server side to configure")
    (endpoint, answered), others = found[0], found[1:]
    lines = [f"# the side that sent SYN-ACKs: {_named(endpoint, answered)}"]
    lines += [f"# not this one: {_named(*other)}" for other in others]
    lines += [
        "[local]",
        f'mac = "{colons(answered[0].server.hardware)}"',
        f'ip = "{dotted(endpoint.address)}"',
        f"port = {endpoint.port}",
        f'app = "{application}"',
        "",
        "[tcp]",
        "window = 65535",
    ]
    mss = _sent_mss(answered)
    if mss != GREATEST_MSS:
        lines.append(f"mss = {mss}")
    return "\n".join(lines) + "\n"


def _named(endpoint: Endpoint, connections: list[Connection]) -> str:
    return f"{endpoint}, {count(len(connections), 'connection')}"


def _sent_mss(connections: Iterable[Connection]) -> int:
    """The MSS by which the server cut what it sent: that of the client, less the options on the server's data."""
    options: Counter[int] = sum((connection.options for connection in connections), Counter())
    announced = [connection.client.mss for connection in connections if connection.client.mss is not None]
    usual = options.most_common(1)[0][0] if options else 0
    return max(LEAST_MSS, min(announced + [GREATEST_MSS]) - usual)


def script(records: int) -> str:
    """The script that plays all records."""
    return f"each 0 {records - 1}\n" if records else "# no records\n"
