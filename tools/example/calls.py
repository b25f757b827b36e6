#!/usr/bin/env python3
"""calls.py: a made-up hydrophone spectrogram of 256 by 256 as a PGM picture on standard output. A column is a moment, row 0 the highest frequency. There are seven call
contours (sweeps and whistles, some with an overtone), two steady tones of a ship, and the sea's noise; the seed is fixed, so the bytes are always the same.

    tools/example/calls.py > calls.pgm"""
import math, random, sys

SIDE, SEED = 256, 26


def contours(r):
    """each call: first and last column, frequency as a function of time from 0 to 1, strength, width, overtone"""
    calls = []
    for k in range(7):
        first = 8 + 33 * k + r.randrange(10)
        length = 34 + r.randrange(40)
        base, sweep, wave = 60 + r.randrange(120), r.uniform(-70, 70), r.uniform(0, 14)
        turns, phase = r.uniform(0.5, 2.5), r.uniform(0, 6)
        shape = lambda t, b=base, s=sweep, w=wave, n=turns, p=phase: b + s * (t - 0.5) + w * math.sin(2 * math.pi * n * t + p)
        calls.append((first, first + length, shape, r.uniform(90, 140), r.uniform(1.5, 2.6), k % 2 == 0))
    return calls


def bright(calls, x, y):
    """the calls' part at column x and row y"""
    sum = 0
    for first, last, shape, strength, width, overtone in calls:
        if first <= x < last:
            t = (x - first) / (last - first)
            fade = min(1, 6 * t, 6 * (1 - t))
            row = SIDE - shape(t)
            sum += fade * strength * math.exp(-((y - row) / width) ** 2)
            if overtone:
                sum += 0.45 * fade * strength * math.exp(-((y - (SIDE - 1.6 * (SIDE - row))) / width) ** 2)
    return sum


def main():
    if len(sys.argv) > 1:
        sys.exit(__doc__)
    r = random.Random(SEED)
    calls = contours(r)
    tones = {214: 34, 236: 46}  # rows and strengths
    out = bytearray(b'P5\n%d %d\n255\n' % (SIDE, SIDE))
    for y in range(SIDE):
        for x in range(SIDE):
            sea = 56 + 40 * (y / SIDE) ** 2 + r.gauss(0, 8)
            tone = sum(s * math.exp(-((y - row) / 1.3) ** 2) for row, s in tones.items())
            out.append(max(0, min(255, round(sea + tone + bright(calls, x, y)))))
    sys.stdout.buffer.write(out)


main()
