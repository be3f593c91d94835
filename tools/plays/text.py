"""A ladder as plain text, 80 to 120 columns wide."""

from __future__ import annotations

from .play import BEFORE_ENTRIES, Play, Row, Side

LEAST_ARROW = 44
MOST_ARROW = 60
SHORTEST_SHAFT = 4


def ladder(play: Play) -> str:
    """The whole ladder of a play, each line with its line feed."""
    page = Page(play)
    lines = [page.heading(), *page.rows(), *page.ends()]
    return "".join(line.rstrip() + "\n" for line in lines)


def arrow_right(text: str, width: int) -> str:
    """A segment of the peer: its text, and an arrow to the right."""
    shaft = max(SHORTEST_SHAFT, width - len(text) - 1) - 1
    return f"{text} {'-' * shaft}>"


def arrow_left(text: str, width: int) -> str:
    """A segment of ours: an arrow to the left, and its text."""
    shaft = max(SHORTEST_SHAFT, width - len(text) - 1) - 1
    return f"<{'-' * shaft} {text}"


class Page:
    """The columns of one ladder: tick, wire number, frame, connection and core where there are several, arrows, application."""

    def __init__(self, play: Play) -> None:
        self.play = play
        longest = max((len(row.text) for row in play.rows if row.side in (Side.PEER, Side.OURS)), default=0)
        self.width = min(MOST_ARROW, max(LEAST_ARROW, longest + 1 + SHORTEST_SHAFT))
        self.cores = play.trace.cores > 1

    def line(self, tick: str, wire: str, frame: str, label: str, core: str, arrow: str, application: str) -> str:
        """One line out of its columns."""
        cells = [f"{tick:>7} {wire:>6} {frame:<6}"]
        if self.play.several():
            cells.append(f"{label:<6}")
        if self.cores:
            cells.append(f"{core:<4}")
        return " ".join([*cells, f"{arrow:<{self.width}} ", application])

    def heading(self) -> str:
        """The names of the columns and of the two ends."""
        play = self.play
        connections = play.trace.connections
        alone = len(connections) == 1 and not play.trace.strays
        peer = f"{connections[0].remote}:{connections[0].remote_port}" if alone else "peer"
        port = connections[0].local_port if alone else play.port
        ours = f"{play.local}:{port}"
        ends = f"{peer}{ours:>{self.width - len(peer)}}"
        return self.line("tick", "wire", "frame", "conn", "core", ends, play.application)

    def rows(self) -> list[str]:
        """The lines of all rows; tick and wire number stand where they change."""
        lines = []
        before: tuple[int, int] | None = None
        for row in self.play.rows:
            now = (row.tick, row.wire)
            lines.append(self.row(row, now != before))
            before = now
        return lines

    def row(self, row: Row, fresh: bool) -> str:
        """The line of one row."""
        tick = str(row.tick) if fresh else ""
        wire = "" if not fresh else "-" if row.wire == BEFORE_ENTRIES else str(row.wire)
        core = "" if row.core is None else str(row.core)
        return self.line(tick, wire, row.frame, row.label, core, self.arrow(row), row.application)

    def arrow(self, row: Row) -> str:
        """What stands between the two ends."""
        if row.side is Side.APPLICATION:
            return ""
        if row.side is Side.NOTE:
            return f"{' ' + row.text + ' ':.^{self.width}}"
        if not row.frame:
            return f"{'(' + row.text + ')':>{self.width}}"
        return arrow_right(row.text, self.width) if row.side is Side.PEER else arrow_left(row.text, self.width)

    def ends(self) -> list[str]:
        """How each connection was left, and the counts."""
        trace = self.play.trace
        lines = [""]
        for number, answer in enumerate(trace.connects):
            lines.append(f"connect {number}: {answer}")
        for connection in trace.connections:
            name = f"{connection.label()}  {connection.remote}:{connection.remote_port} and port {connection.local_port}"
            lines.append(f"{name}, iss {connection.iss:08x}")
            lines.append(f"       left {connection.left}; answer {connection.answer}")
        lines.append(f"replies {trace.replies}, drops {trace.drops}")
        return lines
