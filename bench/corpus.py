#!/usr/bin/env python3
"""Makes 90 sounds of six kinds by whole numbers alone, so that every machine makes the same bytes: music, speech, noise, clicks, tones
and silence; of 14 layouts, mono to 5.1, at three sampling rates, of 16 and of 24 bits. Of each kind and each sampling rate there are
five, and each kind has every layout.

    bench/corpus.py FOLDER [SECONDS]      2 seconds each, if nothing is said; a WAV for each, and a line with its name and CRC-32
"""
import os
import struct
import sys
import zlib
from collections import namedtuple

KINDS = ("music", "speech", "noise", "clicks", "tones", "silence")
SAMPLING = (48000, 44100, 32000)
LAYOUTS = {  # mask: the names of its channels in the WAV's order
    0x4: "C", 0x3: "L R", 0x7: "L R C", 0x103: "L R S", 0x107: "L R C S", 0x33: "L R SL SR", 0x37: "L R C SL SR",
    0xC: "C LFE", 0xB: "L R LFE", 0xF: "L R C LFE", 0x10B: "L R LFE S", 0x10F: "L R C LFE S", 0x3B: "L R LFE SL SR",
    0x3F: "L R C LFE SL SR",
}
RATES = {  # by the number of full channels, in kbit/s
    1: (40, 64, 96, 192, 640),
    2: (64, 96, 192, 320, 640),
    3: (96, 160, 256, 448, 640),
    4: (128, 192, 320, 448, 640),
    5: (160, 256, 384, 448, 640),
}
LOUDEST = 2**23 - 1
Sound = namedtuple("Sound", "number kind mask sampling bits")


def sines():
    """4,096 sines of 15 bits, by a turning pair of whole numbers: no library's sine is asked."""
    one = 1 << 60
    # sine and cosine of a 4,096th of a turn, in units of 2^-60
    sine, cosine = 1768558744408523, 1152920148139012899
    x, y, table = one, 0, []
    for _ in range(4096):
        table.append((y * 32767 + one // 2) // one)
        x, y = (x * cosine - y * sine) // one, (y * cosine + x * sine) // one
    return table


SINES = sines()


class Draws:
    """Numbers by a linear congruence of 64 bits."""

    def __init__(self, seed):
        self.state = seed * 2654435761 + 1

    def next(self, below):
        self.state = self.state * 6364136223846793005 + 1442695040888963407 & 0xFFFFFFFFFFFFFFFF
        return (self.state >> 32) * below >> 32

    def noise(self, count):
        """Of 24 bits."""
        state, values = self.state, []
        for _ in range(count):
            state = state * 6364136223846793005 + 1442695040888963407 & 0xFFFFFFFFFFFFFFFF
            values.append((state >> 40) - 8388608)
        self.state = state
        return values


def sine(pitch, sampling, count, phase=0):
    """Of 15 bits; the pitch in hundredths of a hertz."""
    step = pitch * 4096 * 1024 // (100 * sampling)
    return [SINES[at >> 10 & 4095] for at in range(phase << 10, (phase << 10) + step * count, step)][:count]


def drum(sampling, count, turn):
    """A low beat, twice a second, for LFE."""
    tone, period = sine(5500 + 300 * turn, sampling, count), sampling // 2
    return [value * (period - n % period) ** 2 * 60 // period**2 for n, value in enumerate(tone)]


def music(sound, names, count, draws):
    """Four notes a second of decaying partials, each at a place of its own between two channels, over a soft hiss."""
    rate, places = sound.sampling, [c for c, name in enumerate(names) if name != "LFE"]
    rows = [[value >> 10 for value in draws.noise(count)] for _ in names]
    scale = (22000, 26163, 29366, 32963, 39200, 44000, 52325, 58733)
    for start in range(0, count, rate // 4):
        pitch, length = scale[draws.next(8)], min(rate, count - start)
        note = [0] * length
        for partial in range(1, 6):
            loud = 70 * draws.next(4) + 250 - 40 * partial
            note = [a + b * loud // partial for a, b in zip(note, sine(pitch * partial, rate, length))]
        note = [value * (length - n) // length >> 2 for n, value in enumerate(note)]
        at, share = draws.next(len(places)), draws.next(257)
        for c, gain in ((places[at], 256 - share), (places[(at + 1) % len(places)], share)):
            row = rows[c]
            row[start : start + length] = [a + (b * gain >> 8) for a, b in zip(row[start : start + length], note)]
    return rows


def spoken(sound, count, draws):
    """One voice: syllables of pulses through three resonances, and hisses between them."""
    rate, values, syllable = sound.sampling, [], sound.sampling // 5
    while len(values) < count:
        period = rate * 100 // (9000 + draws.next(6000))
        vowel = [(300 + draws.next(500), 14), (900 + draws.next(1400), 12), (2300 + draws.next(900), 10)]
        length = syllable // 2 + draws.next(syllable)
        part = [0] * length
        for place, (pitch, loud) in enumerate(vowel):
            # y(n) = x(n) + 2 r cos(w) y(n-1) - r^2 y(n-2), with r = 0.98 and units of 2^-14
            turn = pitch * 4096 // rate
            a, b = 2 * 16056 * SINES[turn + 1024 & 4095] // 32767, 15735
            before = last = 0
            for n in range(length):
                value = (loud * 24000 if n % period == 0 else 0) + (a * last - b * before >> 14)
                before, last = last, value
                part[n] += value if place != 1 else value * 3 // 4
        values += [value * min(n, length - n, 600) // 600 for n, value in enumerate(part)]
        hiss = draws.noise(syllable // 3)
        values += [(a - b) * min(n, len(hiss) - n) // len(hiss) >> 3 for n, (a, b) in enumerate(zip(hiss, hiss[1:] + [0]))]
        values += [0] * (syllable // 4)
    return values[:count]


def speech(sound, names, count, draws):
    """A voice in C, or in L and R, and its echoes in the others."""
    voice, rows = spoken(sound, count, draws), []
    for c, name in enumerate(names):
        hiss = [value >> 13 for value in draws.noise(count)]
        late = 0 if name == "C" or "C" not in names and name in "LR" else sound.sampling * (11 + 7 * c) // 1000
        heard = ([0] * late + voice)[:count]
        rows.append([a + (b >> (2 if late else 0)) for a, b in zip(hiss, heard)])
    return rows


def noise(sound, names, count, draws):
    """A noise that all channels have in common, and one of each, which swell in turn."""
    common, rows = draws.noise(count), []
    for c, _ in enumerate(names):
        swell = sine(60 + 25 * c, sound.sampling, count, 700 * c)
        rows.append([(a >> 4) + (b * (s + 40000) >> 19) for a, b, s in zip(common, draws.noise(count), swell)])
    return rows


def clicks(sound, names, count, draws):
    """Clicks that ring for a moment, each channel in a time of its own."""
    rows = []
    for c, _ in enumerate(names):
        row, period = [value >> 14 for value in draws.noise(count)], sound.sampling // 9 + 311 * c
        ring = [value * (200 - n) ** 2 // 200 for n, value in enumerate(sine(310000 + 90000 * c, sound.sampling, 200, 1024))]
        for start in range(100 + draws.next(period), count, period):
            row[start : start + 200] = [a + b for a, b in zip(row[start : start + 200], ring)]
        rows.append(row)
    return rows


def tones(sound, names, count, _):
    """Steady tones: a low one, two that beat, and one near the top."""
    rate, rows = sound.sampling, []
    for c, _ in enumerate(names):
        parts = [sine(pitch, rate, count) for pitch in (11000 + 1700 * c, 100000 + 3100 * c, 100370 + 3100 * c, rate * 33)]
        rows.append([60 * a + 40 * b + 40 * d + 3 * e for a, b, d, e in zip(*parts)])
    return rows


def silence(sound, names, count, draws):
    """Nothing at all in every other tenth of a second, and the last bit or two at random between."""
    tenth, rows = sound.sampling // 10, []
    for _ in names:
        rows.append([value >> 22 if n // tenth & 1 else 0 for n, value in enumerate(draws.noise(count))])
    return rows


RECIPES = {"music": music, "speech": speech, "noise": noise, "clicks": clicks, "tones": tones, "silence": silence}


def sounds():
    """All 90; neighbours are of different kinds, so that any few of them have several."""
    masks, listed = list(LAYOUTS), []
    for slot in range(5):
        for turn, sampling in enumerate(SAMPLING):
            for place, kind in enumerate(KINDS):
                mask = masks[(5 * place + 5 * turn + slot) % len(masks)]
                listed.append(Sound(len(listed), kind, mask, sampling, 24 if (slot + turn + place) % 3 == 0 else 16))
    return listed


def rows_of(sound, seconds):
    """The samples of each channel, of sound.bits bits."""
    names, count = LAYOUTS[sound.mask].split(), int(sound.sampling * seconds)
    draws = Draws(sound.number + 1)
    rows = RECIPES[sound.kind](sound, names, count, draws)
    if "LFE" in names and sound.kind != "silence":
        rows[names.index("LFE")] = drum(sound.sampling, count, sound.number % 5)
    down = 24 - sound.bits
    return [[max(-LOUDEST, min(LOUDEST, value)) >> down for value in row] for row in rows]


def wav(sound, rows):
    """The bytes of a WAV of the extensible form."""
    channels, width = len(rows), sound.bits // 8
    size, pcm = width * channels, bytearray(width * channels * len(rows[0]))
    for c, row in enumerate(rows):
        data = struct.pack(f"<{len(row)}i", *row)
        for place in range(width):
            pcm[width * c + place :: size] = data[place::4]
    form = struct.pack("<HHIIHH", 0xFFFE, channels, sound.sampling, size * sound.sampling, size, sound.bits)
    form += struct.pack("<HHI", 22, sound.bits, sound.mask) + bytes.fromhex("0100000000001000800000aa00389b71")
    pad = b"\0" * (len(pcm) % 2)
    head = b"WAVEfmt " + struct.pack("<I", len(form)) + form + b"data" + struct.pack("<I", len(pcm))
    return b"RIFF" + struct.pack("<I", len(head) + len(pcm) + len(pad)) + head + pcm + pad


def name_of(sound):
    return f"{sound.number:02}-{sound.kind}-{LAYOUTS[sound.mask].replace(' ', '')}-{sound.sampling}"


def full_of(sound):
    """How many full channels it has."""
    return len(LAYOUTS[sound.mask].split()) - ("LFE" in LAYOUTS[sound.mask])


def rates_of(sound):
    return RATES[full_of(sound)]


def main():
    if len(sys.argv) not in (2, 3):
        sys.exit(__doc__.strip())
    folder, seconds = sys.argv[1], float(sys.argv[2]) if len(sys.argv) > 2 else 2
    os.makedirs(folder, exist_ok=True)
    for sound in sounds():
        data = wav(sound, rows_of(sound, seconds))
        with open(os.path.join(folder, name_of(sound) + ".wav"), "wb") as file:
            file.write(data)
        print(f"{name_of(sound)} {zlib.crc32(data):08x}", flush=True)


if __name__ == "__main__":
    main()
