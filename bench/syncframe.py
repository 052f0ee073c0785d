"""Reads AC-3 frames as far as the scripts beside it want them, after A/52 5.3 and 5.4: heads and sizes, both CRC words, and block
by block every field, with the exponents and the bit allocation that tell where the mantissas of a block end. It counts the bits of
each kind, clears the dither flags of other encoders' frames and mends their CRC words.
"""
from collections import Counter, namedtuple
from functools import lru_cache

from allocation import baps

RATES = [32, 40, 48, 56, 64, 80, 96, 112, 128, 160, 192, 224, 256, 320, 384, 448, 512, 576, 640]
FULL = [2, 1, 2, 3, 3, 4, 4, 5]  # full channels by acmod
BLOCKS = 6
LONGEST = 3840
FIELDS = (("sdcycod", 2), ("fdcycod", 2), ("sgaincod", 2), ("dbpbcod", 2), ("floorcod", 3))
STEP = (0, 1, 2, 4)  # bins of a difference by strategy
GROUPED = {1: (3, 5), 2: (3, 7), 4: (2, 7)}  # mantissas of a group and its bits
WIDTHS = (0, 0, 0, 3, 0, 4, 5, 6, 7, 8, 9, 10, 11, 12, 14, 16)

Head = namedtuple("Head", "size fscod acmod lfeon")


class Unread(Exception):
    """A frame with what this reader doesn't follow, by name."""


def crc_table():
    table = []
    for byte in range(256):
        sum_ = byte << 8
        for _ in range(8):
            sum_ = (sum_ << 1 ^ (0x8005 if sum_ & 0x8000 else 0)) & 0xFFFF
        table.append(sum_)
    return table


CRC = crc_table()
BEFORE = {entry & 255: place for place, entry in enumerate(CRC)}


def remainder(data):
    sum_ = 0
    for byte in data:
        sum_ = (sum_ << 8 & 0xFFFF) ^ CRC[sum_ >> 8 ^ byte]
    return sum_


def start_for(data):
    """The 16 bits which before these bytes make the remainder 0: the register, run backwards from 0."""
    sum_ = 0
    for byte in data[::-1] + b"\0\0":
        place = BEFORE[sum_ & 255]
        sum_ = (place ^ byte) << 8 | (sum_ ^ CRC[place]) >> 8
    return sum_


def front(size):
    """The bytes that crc1 covers, sync word included."""
    words = size // 2
    return 2 * (words // 2 + words // 8)


def head_at(data, at):
    """The head of the frame that begins there, or None where none can begin: six bytes and the LFE flag are looked at."""
    piece = data[at : at + 8]
    if len(piece) < 8 or piece[:2] != b"\x0b\x77" or piece[5] >> 3 != 8:
        return None
    fscod, code, acmod = piece[4] >> 6, piece[4] & 63, piece[6] >> 5
    if fscod == 3 or code > 37 or acmod == 0:
        return None
    rate = RATES[code // 2]
    words = (2 * rate, 320 * rate // 147 + code % 2, 3 * rate)[fscod]
    mixing = (2 if acmod & 1 and acmod != 1 else 0) + (2 if acmod & 4 else 0) + (2 if acmod == 2 else 0)
    lfeon = int.from_bytes(piece[6:8], "big") >> 12 - mixing & 1
    return Head(2 * words, fscod, acmod, lfeon)


def whole_frames(data):
    """The heads of the frames up to the first that isn't whole: a head and its size within the bytes, both CRC words, sampling rate
    and layout as the first frame's. They are all frames of a good stream."""
    heads, at = [], 0
    while at < len(data):
        head = head_at(data, at)
        if head is None or at + head.size > len(data) or heads and head[1:] != heads[0][1:]:
            break
        if remainder(data[at + 2 : at + front(head.size)]) or remainder(data[at + 2 : at + head.size]):
            break
        heads.append(head)
        at += head.size
    return heads


def frames_of(data):
    """The frames of a stream, by their sizes alone."""
    at, frames = 0, []
    while at < len(data):
        head = head_at(data, at)
        if head is None or at + head.size > len(data):
            raise Unread(f"no frame at byte {at}")
        frames.append(data[at : at + head.size])
        at += head.size
    return frames


def mended(frame):
    """With the CRC words that belong to its other bytes (A/52 7.10.1)."""
    return closed(frame[:2] + start_for(frame[4 : front(len(frame))]).to_bytes(2, "big") + frame[4:])


def closed(frame):
    """With the crc2 that belongs to its other bytes; the bit before it keeps it from being a sync word."""
    frame = bytearray(frame)
    last = remainder(frame[2:-2])
    if last == 0x0B77:
        frame[-3] ^= 1
        last = remainder(frame[2:-2])
    frame[-2:] = last.to_bytes(2, "big")
    return bytes(frame)


@lru_cache(maxsize=64)
def pointers(lead, start, end, exponents, parameters, offset, silent):
    """How many bins have each pointer."""
    return Counter(baps(dict(parameters), lead, start, end, exponents, offset, silent))


class Reader:
    """One frame's fields in their order. `dither` has the bit places of its dither flags, `coupled` the blocks with coupling,
    `rematrixed` the blocks with a rematrix flag that is set, `bits` how many bits are exponents, mantissas, skip bytes, what lies
    unused before auxdatae, and side, which is all others; `ways` by channel the strategy of each block, 0 for reuse and None where
    the channel isn't in the block; `sent` the SNR offset that the frame begins with."""

    def __init__(self, frame):
        self.number, self.length, self.at = int.from_bytes(frame, "big"), 8 * len(frame), 0
        self.dither, self.coupled, self.rematrixed = [], 0, 0
        self.in_coupling, self.phase, self.begin, self.last, self.bands, self.flags = [], 0, 0, 0, 0, 0
        self.ends, self.exponents, self.parameters, self.offsets = {}, {}, {}, {}
        self.bits, self.kind, self.ways, self.sent = Counter(), "side", {}, None
        self.head()
        for block in range(BLOCKS):
            self.block(block)
        if self.at > self.length - 18:
            raise Unread("mantissas past the end")
        self.bits["aux"] = self.length - 18 - self.at
        self.bits["side"] += 18

    def take(self, width):
        self.at += width
        self.bits[self.kind] += width
        if self.at > self.length:
            raise Unread("outofbits")
        return self.number >> self.length - self.at & (1 << width) - 1 if width else 0

    def head(self):
        take = self.take
        take(16 + 16)
        self.parameters["fscod"] = take(2)
        take(6 + 5 + 3)
        acmod = self.acmod = take(3)
        take(2 if acmod & 1 and acmod != 1 else 0), take(2 if acmod & 4 else 0), take(2 if acmod == 2 else 0)
        self.lfe = take(1)
        self.full = FULL[acmod]
        take(5)
        for width in (8, 8, 7):
            take(width * take(1))
        take(2)
        for width in (14, 14):
            take(width * take(1))
        if take(1):
            take(8 * (take(6) + 1))

    def block(self, block):
        take = self.take
        if take(self.full):
            raise Unread("shortblock")
        self.dither += range(self.at, self.at + self.full)
        take(self.full)
        take(8 * take(1))
        if take(1):
            self.coupling()
        if self.in_coupling:
            self.coupled += 1
            self.coordinates()
        if self.acmod == 2 and take(1):
            self.flags = take(4 if not self.in_coupling or self.begin > 2 else 3 if self.begin else 2)
        self.rematrixed += self.flags > 0
        self.strategies(block)
        self.side()
        self.kind = "mantissas"
        self.skip_mantissas()
        self.kind = "side"

    def coupling(self):
        take = self.take
        self.in_coupling = []
        if not take(1):
            return
        self.in_coupling = [c for c in range(self.full) if take(1)]
        self.phase = take(1) if self.acmod == 2 else 0
        self.begin, self.last = take(4), take(4)
        wide = 3 + self.last - self.begin
        self.bands = wide - sum(take(1) for _ in range(wide - 1))

    def coordinates(self):
        new = False
        for _ in self.in_coupling:
            if self.take(1):
                new = True
                self.take(2 + 8 * self.bands)
        if new and self.acmod == 2 and self.phase:
            self.take(self.bands)

    def strategies(self, block):
        take = self.take
        together = take(2) if self.in_coupling else 0
        kinds = [take(2) for _ in range(self.full)]
        low = take(1) if self.lfe else 0
        for channel, kind in zip(self.channels(), [together] * bool(self.in_coupling) + kinds + [low]):
            self.ways.setdefault(channel, [None] * BLOCKS)[block] = kind
        for c, kind in enumerate(kinds):
            if kind and c not in self.in_coupling:
                self.ends[c] = 37 + 3 * (take(6) + 12)
        self.kind = "exponents"
        if together:
            self.new_exponents("coupling", together)
        for c, kind in enumerate(kinds):
            if kind:
                self.new_exponents(c, kind)
                take(2)
        if low:
            self.new_exponents("low", 1)
        self.kind = "side"

    def span(self, channel):
        """The bins of a coded channel in this block: with coupling going on and off they can be fewer than its exponents."""
        if channel == "low":
            return 0, 7
        if channel == "coupling":
            return 37 + 12 * self.begin, 37 + 12 * (self.last + 3)
        return 0, 37 + 12 * self.begin if channel in self.in_coupling else self.ends[channel]

    def new_exponents(self, channel, kind):
        start, end = self.span(channel)
        value, exponents = self.take(4), []
        if channel == "coupling":
            value, exponents = 2 * value, [0] * start
        else:
            exponents = [value]
        while len(exponents) < end:
            group = self.take(7)
            for step in (group // 25, group // 5 % 5, group % 5):
                value += step - 2
                exponents += [value] * STEP[kind]
        if min(exponents[start:end]) < 0 or max(exponents[start:end]) > 24:
            raise Unread("badexponent")
        self.exponents[channel] = tuple(exponents[:end])

    def channels(self):
        """The coded channels of this block, in the order of their offsets."""
        return ["coupling"] * bool(self.in_coupling) + list(range(self.full)) + ["low"] * self.lfe

    def side(self):
        take = self.take
        if take(1):
            self.parameters.update((name, take(width)) for name, width in FIELDS)
        if take(1):
            self.coarse = take(6)
            for channel in self.channels():
                self.offsets[channel] = take(4), take(3)
            if self.sent is None:
                self.sent = 16 * self.coarse + self.offsets[0][0]
        if self.in_coupling and take(1):
            self.parameters["cplfleak"], self.parameters["cplsleak"] = take(3), take(3)
        if take(1):
            raise Unread("delta")
        if take(1):
            count = take(9)
            self.kind = "skip"
            take(8 * count)

    def skip_mantissas(self):
        counts = Counter()
        silent = self.coarse == 0 and all(self.offsets[channel][0] == 0 for channel in self.channels())
        for channel in self.channels():
            lead = channel if isinstance(channel, str) else "free"
            fine, gain = self.offsets[channel]
            parameters = tuple({**self.parameters, "fgaincod": gain}.items())
            counts += pointers(lead, *self.span(channel), self.exponents[channel], parameters, 16 * self.coarse + fine, silent)
        for pointer, count in counts.items():
            many, width = GROUPED.get(pointer, (1, WIDTHS[pointer]))
            self.take((count + many - 1) // many * width)


def without_dither(frame):
    """The frame with its dither flags cleared and its CRC words mended, and what its reader saw."""
    try:
        reader = Reader(frame)
    except (LookupError, ValueError) as cause:
        raise Unread("a value that was never sent") from cause
    clear = sum(1 << reader.length - 1 - place for place in reader.dither)
    return mended((reader.number & ~clear).to_bytes(len(frame), "big")), reader
