#!/usr/bin/env python3
"""The parametric bit allocation of A/52 7.2, written after the standard's running form, to compare with ac_alloc.

`allocation.py` prints the rows of the tables in crates/ac_alloc/src/tests.rt.
"""


def runs(*pairs):
    return [value for value, count in pairs for _ in range(count)]


def hex_runs(text):
    pairs = []
    for word in text.split():
        value, _, count = word.partition("x")
        pairs.append((int(value, 16), int(count or 1)))
    return runs(*pairs)


# A/52 Tables 7.12 to 7.16
BNDTAB = list(range(28)) + [28, 31, 34, 37, 40, 43, 46, 49, 55, 61, 67, 73, 79, 85, 97, 109, 121, 133,
                            157, 181, 205, 229, 253]
MASKTAB = [band for band in range(50) for _ in range(BNDTAB[band], BNDTAB[band + 1])]
LATAB = runs(*[(value, 1) for value in range(64, 52, -1)],
             (52, 2), (51, 1), (50, 1), (49, 1), (48, 1), (47, 2), (46, 1), (45, 1), (44, 2), (43, 1), (42, 1), (41, 2),
             (40, 1), (39, 1), (38, 2), (37, 1), (36, 2), (35, 2), (34, 1), (33, 2), (32, 2), (31, 1),
             *[(value, 2) for value in range(30, 21, -1)], (21, 3), (20, 2), *[(value, 3) for value in range(19, 13, -1)],
             (13, 4), (12, 4), (11, 4), (10, 5), (9, 5), (8, 6), (7, 6), (6, 8), (5, 8), (4, 11), (3, 14), (2, 19), (1, 32))
LATAB += [0] * (256 - len(LATAB))
HTH = [
    hex_runs("4d0x2 440 400 3e0 3c0 3b0x2 3a0x5 390x3 380x2 370x2 360x2 350x2 340x2 330 320 310 300 2f0x4 300 310 340 390 "
             "3e0 420 460 490 4a0 460 440x2 520 800 840x2"),
    hex_runs("4f0x2 460 410 3e0 3d0 3c0 3b0x2 3a0x5 390x3 380x3 370x2 360x2 350x2 340x2 320 310 300 2f0x4 300 320 350 390 "
             "3e0 420 450 4a0 490 460 440 480 630 840x2"),
    hex_runs("580x2 4b0 450 420 3f0 3e0 3d0 3c0 3b0x3 3a0x8 390x4 380x3 370 360 350 340 330 320 310 300 2f0x3 300 310 330 "
             "350 3c0 410 470 4a0 460 440 450 4e0"),
]
BAPTAB = runs((0, 1), (1, 5), (2, 2), (3, 3), (4, 2), (5, 2), *[(value, 4) for value in range(6, 14)], (14, 8), (15, 9))

# A/52 Tables 7.6 to 7.10
SLOW_DECAY = [0x0F, 0x11, 0x13, 0x15]
FAST_DECAY = [0x3F, 0x53, 0x67, 0x7B]
SLOW_GAIN = [0x540, 0x4D8, 0x478, 0x410]
KNEE = [0, 0x700, 0x900, 0xB00]
FLOOR = [0x2F0, 0x2B0, 0x270, 0x230, 0x1F0, 0x170, 0x0F0, -2048]

ENCODER = dict(sdcycod=2, fdcycod=1, sgaincod=1, dbpbcod=3, floorcod=7, fgaincod=4, cplfleak=0, cplsleak=0)


def lowcomp(a, b0, b1, band):
    if band >= 20:
        return max(0, a - 128)
    if b0 + 256 == b1:
        return 384 if band < 7 else 320
    return max(0, a - 64) if b0 > b1 else a


def band_densities(exps, start, end):
    bndpsd = [0] * 51
    for bin_ in range(start, end):
        psd, band = 3072 - 128 * exps[bin_], MASKTAB[bin_]
        if bin_ == start or bin_ == BNDTAB[band]:
            bndpsd[band] = psd
        else:
            bndpsd[band] = max(bndpsd[band], psd) + LATAB[min(abs(bndpsd[band] - psd) // 2, 255)]
    return bndpsd


def masks(p, lead, start, end, exps):
    bndpsd = band_densities(exps, start, end)
    fgain, sgain = 0x80 * (p["fgaincod"] + 1), SLOW_GAIN[p["sgaincod"]]
    fdecay, sdecay = FAST_DECAY[p["fdcycod"]], SLOW_DECAY[p["sdcycod"]]
    knee = KNEE[p["dbpbcod"]]
    excite = [0] * 50
    first, last = MASKTAB[start], MASKTAB[end - 1]
    if lead == "coupling":
        fast, slow = 256 * p["cplfleak"] + 768, 256 * p["cplsleak"] + 768
        for b in range(first, last + 1):
            fast = max(fast - fdecay, bndpsd[b] - fgain)
            slow = max(slow - sdecay, bndpsd[b] - sgain)
            excite[b] = max(fast, slow)
    else:
        lfe = lead == "low"
        low, leaking, fast, slow = 0, False, 0, 0
        for b in range(last + 1):
            if b <= 21 and not (lfe and b == 6):
                low = lowcomp(low, bndpsd[b], bndpsd[b + 1], b)
            if b < 2:
                excite[b] = bndpsd[b] - fgain - low
                continue
            if b == 7:
                leaking = True
            if not leaking:
                fast, slow = bndpsd[b] - fgain, bndpsd[b] - sgain
                excite[b] = fast - low
                if not (lfe and b == 6) and bndpsd[b] <= bndpsd[b + 1]:
                    leaking = True
                continue
            fast = max(fast - fdecay, bndpsd[b] - fgain)
            slow = max(slow - sdecay, bndpsd[b] - sgain)
            excite[b] = max(fast - low, slow) if b <= 21 else max(fast, slow)
    out = {}
    for b in range(first, last + 1):
        level = excite[b] + ((knee - bndpsd[b]) // 4 if bndpsd[b] < knee else 0)
        out[b] = max(level, HTH[p["fscod"]][b])
    return out


def baps(p, lead, start, end, exps, t, silent=False):
    mask, floor = masks(p, lead, start, end, exps), FLOOR[p["floorcod"]]
    snroffset = 4 * (t - 240)
    out = []
    for bin_ in range(start, end):
        m = (max(0, mask[MASKTAB[bin_]] - snroffset - floor) & 0x1FE0) + floor
        address = (3072 - 128 * exps[bin_] - m) // 32
        out.append(0 if silent else BAPTAB[min(max(address, 0), 63)])
    return out


def exponents(seed):
    """256 exponents, by a seed of 32 bits."""
    out = []
    for _ in range(256):
        seed = (seed * 1664525 + 1013904223) % 2**32
        out.append(seed >> 16)
    return out


def spread(seed):
    """Exponents of all sizes."""
    return [x % 25 for x in exponents(seed)]


def sloping(seed):
    """Exponents that rise from low to high bins by steps of up to 2."""
    return [min(24, k // 12 + x % 3) for k, x in enumerate(exponents(seed))]


def checksum(numbers):
    """All of them in one number, by their order."""
    total = 0
    for number in numbers:
        total = (total * 31 + number) % 2**32
    return total


# chbwcod, cplbegf and cplendf where there is a coupling, and the coded channel, of two channels with LFE
SPANS = [
    ("free", 0, None, 0),
    ("free", 28, None, 0),
    ("free", 60, None, 0),
    ("coupled", 60, (0, 0), 0),
    ("coupled", 60, (2, 15), 0),
    ("coupled", 60, (15, 13), 0),
    ("coupling", 60, (0, 0), 2),
    ("coupling", 60, (2, 15), 2),
    ("coupling", 60, (15, 15), 2),
    ("low", 60, None, 2),
    ("low", 60, (0, 15), 3),
]
FIELDS = ["fscod", "sdcycod", "fdcycod", "sgaincod", "dbpbcod", "floorcod", "fgaincod", "cplfleak", "cplsleak"]
LIMITS = [3, 4, 4, 4, 4, 8, 8, 8, 8]


def ends(lead, chbwcod, couple):
    if lead == "free":
        return 0, 37 + 3 * (chbwcod + 12)
    if lead == "coupled":
        return 0, 37 + 12 * couple[0]
    if lead == "coupling":
        return 37 + 12 * couple[0], 37 + 12 * (couple[1] + 3)
    return 0, 7


def main():
    draw = iter(exponents(2026) + exponents(52))
    for number, (lead, chbwcod, couple, channel) in enumerate(SPANS):
        for slope in (True, False):
            p = {field: next(draw) % limit for field, limit in zip(FIELDS, LIMITS)}
            if lead == "coupling":
                p["cplfleak"], p["cplsleak"] = number % 8, 7 - number % 8
            t = 140 + next(draw) % 300
            start, end = ends(lead, chbwcod, couple)
            exps = (sloping if slope else spread)(number)
            told = "None" if couple is None else "Some((%d, %d))" % couple
            masked = checksum(masks(p, lead, start, end, exps).values())
            pointed = checksum(baps(p, lead, start, end, exps, t))
            print("        (%d, %s, %d, %s, %d, %s, %d, %d, %d)," % (
                chbwcod, told, channel, list(p.values()), number, str(slope).lower(), t, masked, pointed))


if __name__ == "__main__":
    main()
