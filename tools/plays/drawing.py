"""Plays that are drawn by a number: peers that send, lose, repeat and close, and a script that moves their flow groups between cores."""

from __future__ import annotations

import struct
from dataclasses import dataclass, field
from random import Random

from captures.packets import ACK, FIN, PSH, RST, SYN
from captures.segments import LOCAL, SERVER, End, frame_of

HASH_KEY = int.from_bytes(bytes.fromhex("6d5a56da255b0ec24167253d43a38fb0d0ca2bcbae7b30b477cb2da38030f20c6a42b73bbeac01fa"))
KEY_BITS, WORD = 320, 2**32
GROUPS, CLASSES = 512, 128
ARP_REQUEST = bytes.fromhex("ffffffffffff02000000000208060001080006040001020000000002420995bb000000000000a18e6450")
LENGTHS = (1, 3, 20, 100, 600, 1460)
NEIGHBOURS = 4


@dataclass(frozen=True)
class Drawn:
    """A play: its configuration, its script, and the frames of its capture."""

    conf: str
    script: str
    frames: list[bytes]


def toeplitz(data: bytes) -> int:
    """The hash by which a card steers a flow: for each bit that is set, the 32 bits of the key from its place on."""
    bits = int.from_bytes(data)
    length = 8 * len(data)
    number = 0
    for place in range(length):
        if bits >> (length - 1 - place) & 1:
            number ^= HASH_KEY >> (KEY_BITS - 32 - place) & (WORD - 1)
    return number


def draw(number: int) -> Drawn:
    """The play of a number: the same at each call."""
    random = Random(number)
    cores = random.choice([1, 2, 2, 3, 4, 4, 8])
    live = random.randint(1, cores)
    application = random.choice(["echo", "echo", "echo", "kv", "push"])
    pace = random.choice([0, 1, 5, 16, 64, 256])
    clients = [Client.draw(random, application) for _ in range(random.choice([1, 2, 4, 8, 20]))]
    frames = draw_frames(random, clients)
    script = Script(random, cores, live, [client.group() for client in clients])
    return Drawn(draw_conf(random, cores, live, pace, application), script.draw(len(frames)), frames)


def draw_conf(random: Random, cores: int, live: int, pace: int, application: str) -> str:
    """A configuration."""
    batch, buffers = random.choice([1, 2, 3, 16, 64, 256]), random.choice([64, 65, 100, 512, 513, 1024, 4096])
    lines = [
        f'{LOCAL}app = "{application}"',
        f"[core]\ncores = {cores}\nlive = {live}\nbatch = {batch}\nbuffers = {buffers}\npace = {pace}",
        f"[tcp]\nwindow = {random.choice([64, 1000, 32768, 65535])}\nmss = {random.choice([64, 536, 1460])}",
        f"rto = {random.choice([1, 50, 200])}\nretries = {random.choice([1, 3, 5])}\ntime_wait = {random.choice([1, 1000, 60000])}",
    ]
    if application == "push":
        peers = [f'{{ ip = "10.0.0.{random.randint(1, NEIGHBOURS + 1)}", port = {random.choice([9, 80])} }}' for _ in range(random.randrange(9))]
        lines.append(f'[push]\ntext = "{"hello " * random.randrange(300)}"\npeers = [{", ".join(peers)}]')
        lines += [f'[[neighbour]]\nip = "10.0.0.{place}"\nmac = "02:00:00:00:01:0{place}"' for place in range(1, NEIGHBOURS + 1)]
    return "\n".join([*lines, ""])


@dataclass
class Client:
    """A peer. Its acknowledgements are those of somebody who guesses what was sent; not all are right."""

    random: Random
    application: str
    end: End
    ours: int
    following: int
    window: int
    opened: bool = False
    closed: bool = False
    sent: int = 0
    known: int = 0

    @staticmethod
    def draw(random: Random, application: str) -> Client:
        """A peer with an end of its own; the initial number of our side is the hash of its flow, at the clock 0."""
        end = End(bytes([10, 0, random.randrange(4), random.randint(1, 249)]), random.randint(1024, 59_999))
        first = random.choice([4096, 0xFFFFFFF0, random.randrange(WORD)])
        return Client(random, application, end, flow_hash(end), first, random.choice([0, 1000, 64_240, 64_240, 65_535]))

    def group(self) -> int:
        """Its flow group."""
        return flow_hash(self.end) % GROUPS

    def segment(self, flags: int, seq: int, body: bytes = b"", window: int | None = None) -> bytes:
        """One of its segments."""
        acknowledged = (self.ours + 1 + self.known) % WORD if flags & ACK else 0
        return frame_of(self.end, SERVER, flags, seq % WORD, acknowledged, self.window if window is None else window, body)

    def body(self) -> bytes:
        """Bytes for the application."""
        length = self.random.choice(LENGTHS)
        if self.application == "kv":
            return b"".join(self.random.choice([b"set k v\n", b"get k\n", b"del k\r\n", b"half"]) for _ in range(length // 8 + 1))
        return self.random.randbytes(length)

    def speak(self) -> list[bytes]:
        """What it sends next."""
        if not self.opened:
            self.opened = True
            self.following += 1
            return [self.segment(SYN, self.following - 1), self.segment(ACK, self.following)]
        if self.closed:
            return [self.segment(ACK, self.following)]
        says = (self.data, self.hole, self.acknowledgement, self.close, self.reset, self.old_data, self.strange)
        return self.random.choices(says, weights=(50, 15, 20, 5, 2, 4, 4))[0]()

    def data(self) -> list[bytes]:
        """Bytes in order."""
        body = self.body()
        self.sent += len(body)
        self.following += len(body)
        return [self.segment(ACK | PSH, self.following - len(body), body)]

    def hole(self) -> list[bytes]:
        """Bytes out of order, and then those before them."""
        behind = self.body()
        [before] = self.data()
        self.sent += len(behind)
        self.following += len(behind)
        return [self.segment(ACK | PSH, self.following - len(behind), behind), before]

    def acknowledgement(self) -> list[bytes]:
        """An acknowledgement of some bytes that may have come back, with another window."""
        self.known += self.random.randint(0, max(0, self.sent - self.known))
        return [self.segment(ACK, self.following, window=self.random.choice([0, 10, 64_240, self.window]))]

    def close(self) -> list[bytes]:
        """Its end."""
        self.closed = True
        self.following += 1
        return [self.segment(ACK | FIN, self.following - 1)]

    def reset(self) -> list[bytes]:
        """A reset."""
        return [self.segment(RST, self.following)]

    def old_data(self) -> list[bytes]:
        """Bytes that overlap earlier ones."""
        return [self.segment(ACK | PSH, self.following - 5, self.body())]

    def strange(self) -> list[bytes]:
        """A SYN within the connection."""
        return [self.segment(SYN, self.following)]


def flow_hash(end: End) -> int:
    """The hash of a flow with the local side."""
    return toeplitz(end.address + SERVER.address + struct.pack(">HH", end.port, SERVER.port))


def draw_frames(random: Random, clients: list[Client]) -> list[bytes]:
    """What peers send, and strays; now and then a bit is another."""
    frames: list[bytes] = []
    count = random.choice([10, 40, 120, 300])
    while len(frames) < count:
        kind = random.random()
        if kind < 0.03:
            frames.append(ARP_REQUEST)
        elif kind < 0.05:
            frames.append(random.randbytes(random.choice([0, 5, 14, 60, 2048, 2049, 3000])))
        else:
            frames += random.choice(clients).speak()
    return [damaged(random, frame) if frame and random.random() < 0.01 else frame for frame in frames]


def damaged(random: Random, frame: bytes) -> bytes:
    """The frame with one bit changed."""
    at = random.randrange(len(frame))
    return frame[:at] + bytes([frame[at] ^ 1 << random.randrange(8)]) + frame[at + 1 :]


@dataclass
class Script:
    """A script that is drawn line by line. It moves groups by `tag` and `move`, or else by `add` and `revoke`: who does both has to carry out plans."""

    random: Random
    cores: int
    live: int
    busy: list[int]
    lines: list[str] = field(default_factory=list)
    tagged: list[int] = field(default_factory=list)
    clock: int = 0

    def draw(self, frames: int) -> str:
        """The lines of a script that plays frames of a capture of so many, in their order, with losses and repeats."""
        random = self.random
        version = random.choice([1, 2])
        places = CLASSES if version == 1 else GROUPS
        self.lines.append(f"version {version}")
        core_of = {place: place % CLASSES % self.live for place in range(places)}
        busy = [group % places for group in self.busy]
        online, plans = set(range(self.live)), random.random() < 0.3
        at = 0
        while at < frames:
            step = random.random()
            if step < 0.55:
                last = min(frames - 1, at + random.choice([0, 0, 1, 3, 10, 50]))
                self.lines.append(f"{random.choice(['frames', 'frames', 'each'])} {at} {last}")
                at = last + 1
            elif step < 0.6:
                self.lines.append(f"frames {(again := random.randrange(frames))} {again}")
            elif step < 0.63:
                at += random.choice([1, 2])
            elif step < 0.7:
                self.clock += random.choice([0, 1, 50, 200, 1000, 60_000])
                self.lines.append(f"time {self.clock}")
            elif step < 0.75:
                self.lines.append("settle")
            elif plans:
                self.plan(online)
            elif len(online) > 1:
                self.migrate(core_of, random.choice([*busy, random.randrange(places)]))
        for place in list(self.tagged):
            self.move(core_of, place)
        return "\n".join([*self.lines, ""])

    def plan(self, online: set[int]) -> None:
        """Adds a core that is not live, or revokes one of several."""
        idle = [core for core in range(self.cores) if core not in online]
        if idle and (len(online) == 1 or self.random.random() < 0.5):
            core = self.random.choice(idle)
            online.add(core)
            self.lines.append(f"add {core}")
        elif len(online) > 1:
            core = self.random.choice(sorted(online))
            online.remove(core)
            self.lines.append(f"revoke {core}")

    def migrate(self, core_of: dict[int, int], place: int) -> None:
        """Tags a place, or moves one that is tagged."""
        if self.tagged and self.random.random() < 0.5:
            self.move(core_of, self.random.choice(self.tagged))
        elif place not in self.tagged:
            self.tagged.append(place)
            self.lines.append(f"tag {place}")

    def move(self, core_of: dict[int, int], place: int) -> None:
        """Moves a tagged place to another core."""
        core_of[place] = self.random.choice([core for core in range(self.live) if core != core_of[place]])
        self.tagged.remove(place)
        self.lines.append(f"move {place} {core_of[place]}")
