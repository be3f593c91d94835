"""A ladder as a picture that a browser opens (SVG): two lanes a connection, and a colour a core where there are several."""

from __future__ import annotations

from html import escape

from .play import BEFORE_ENTRIES, DROP, STRAY, Play, Row, Side

ROW_HEIGHT = 26
TOP = 64
MARGIN = 150
LANE_GAP = 430
APPLICATION_WIDTH = 230
BLOCK = LANE_GAP + APPLICATION_WIDTH
INK = "#222222"
PALE = "#999999"
CORE_COLOURS = ("#1f6fb4", "#d1590b", "#2a8c3f", "#a13fa1", "#b8860b", "#c2185b", "#00838f", "#5d4037")
STYLE = "text{font:12px monospace;fill:#222}.pale{fill:#777}.head{font-weight:bold}"


def ladder(play: Play) -> str:
    """The whole picture of a play."""
    return Drawing(play).svg()


def text_at(x: float, y: float, text: str, anchor: str = "start", kind: str = "") -> str:
    """A piece of text."""
    mark = f' class="{kind}"' if kind else ""
    return f'<text x="{x:g}" y="{y:g}" text-anchor="{anchor}"{mark}>{escape(text)}</text>'


def line_at(x1: float, y1: float, x2: float, y2: float, colour: str, more: str = "") -> str:
    """A straight line."""
    return f'<line x1="{x1:g}" y1="{y1:g}" x2="{x2:g}" y2="{y2:g}" stroke="{colour}"{more}/>'


class Drawing:
    """Places the lanes of all connections beside each other, and the rows below each other."""

    def __init__(self, play: Play) -> None:
        self.play = play
        self.names = {c.label(): (f"{c.remote}:{c.remote_port}", f"{play.local}:{c.local_port}", c.left) for c in play.trace.connections}
        if any(row.label in (STRAY, DROP) for row in play.rows):
            self.names[STRAY] = ("peers", f"{play.local}, no connection", "")
        self.places = {label: MARGIN + place * BLOCK for place, label in enumerate(self.names)}
        self.core = {label: 0 for label in self.names}
        self.bottom = TOP + ROW_HEIGHT * (len(play.rows) + 1)

    def svg(self) -> str:
        """The lines of the file."""
        width = MARGIN + BLOCK * max(1, len(self.places))
        height = self.bottom + 40
        head = f'<svg xmlns="http://www.w3.org/2000/svg" width="{width}" height="{height}" viewBox="0 0 {width} {height}">'
        marker = '<marker id="tip" markerWidth="9" markerHeight="8" refX="8" refY="4" orient="auto">'
        tip = f'{marker}<path d="M0,0 L9,4 L0,8 z" fill="{INK}"/></marker>'
        ground = f'<rect width="{width}" height="{height}" fill="white"/>'
        parts = [head, f"<style>{STYLE}</style><defs>{tip}</defs>{ground}"]
        parts += [*self.headings(), *self.rows(width), *self.ends(), *self.legend()]
        return "\n".join([*parts, "</svg>", ""])

    def headings(self) -> list[str]:
        """The names of the columns and lanes, and the lanes of the peers."""
        y = TOP - 30
        parts = [text_at(46, y, "tick", "end", "head"), text_at(88, y, "wire", "end", "head"), text_at(98, y, "frame", "start", "head")]
        for label, x in self.places.items():
            peer, ours, _ = self.names[label]
            parts.append(text_at(x, y, peer, "start", "head"))
            parts.append(text_at(x + LANE_GAP, y, ours, "end", "head"))
            parts.append(text_at(x + LANE_GAP + 14, y, "" if label == STRAY else self.play.application, "start", "head"))
            parts.append(line_at(x, TOP - 20, x, self.bottom, PALE))
        return parts

    def rows(self, width: int) -> list[str]:
        """All rows, with tick and wire number where they change, and beside each the lanes of ours in the colours of their cores."""
        parts = []
        before: tuple[int, int] | None = None
        for number, row in enumerate(self.play.rows):
            y = TOP + ROW_HEIGHT * number
            if row.core is not None:
                self.core[row.label] = row.core
            if (row.tick, row.wire) != before:
                wire = "-" if row.wire == BEFORE_ENTRIES else str(row.wire)
                parts += [text_at(46, y + 4, str(row.tick), "end"), text_at(88, y + 4, wire, "end")]
                before = (row.tick, row.wire)
            parts += [*self.lanes(y), *self.row(row, y, width)]
        return parts

    def lanes(self, y: float) -> list[str]:
        """Our lanes beside one row."""
        half = ROW_HEIGHT / 2
        return [
            line_at(x + LANE_GAP, y - half, x + LANE_GAP, y + half, self.colour(label), ' stroke-width="4"')
            for label, x in self.places.items()
        ]

    def colour(self, label: str) -> str:
        """The colour of the core that stepped the connection last."""
        return CORE_COLOURS[self.core[label] % len(CORE_COLOURS)] if self.play.trace.cores > 1 else INK

    def row(self, row: Row, y: float, width: int) -> list[str]:
        """One row at its connection's lanes."""
        if row.side is Side.NOTE:
            dotted = ' stroke-dasharray="2 4"'
            return [line_at(MARGIN, y, width - 20, y, PALE, dotted), text_at(MARGIN + LANE_GAP / 2, y - 3, row.text, "middle", "pale")]
        left = self.places[STRAY if row.label == DROP else row.label]
        right = left + LANE_GAP
        parts = [text_at(98, y + 4, row.frame)] if row.frame else []
        if row.application:
            parts.append(text_at(right + 14, y + 4, row.application))
        if row.side is Side.APPLICATION:
            return parts
        if not row.frame:
            return [*parts, text_at(right - 10, y + 4, f"({row.text})", "end", "pale")]
        start, end = (left, right - 3) if row.side is Side.PEER else (right - 3, left)
        tipped = ' marker-end="url(#tip)"'
        return [*parts, line_at(start, y + 4, end, y + 4, INK, tipped), text_at(left + LANE_GAP / 2, y, row.text, "middle")]

    def ends(self) -> list[str]:
        """How each connection was left, below its lanes."""
        return [text_at(x, self.bottom + 16, self.names[label][2]) for label, x in self.places.items()]

    def legend(self) -> list[str]:
        """Which colour is which core, where there are several."""
        if self.play.trace.cores == 1:
            return []
        return [
            f'<text x="{MARGIN + 80 * core}" y="18" style="fill:{CORE_COLOURS[core % len(CORE_COLOURS)]};font-weight:bold">core {core}</text>'
            for core in range(self.play.trace.cores)
        ]
