#!/usr/bin/env python3
"""beside.py OUT.png PICTURE ..: grey pictures of one size, PGM or PNG, side by side as one PNG; then a part of each, four pixels to one, below.

    tools/example/beside.py calls-beside.png calls.pgm plain.pgm ours.png"""
import struct, sys, zlib

GAP, ZOOM, PART = 8, 4, (96, 64, 64)  # the part's first column, first row and side


def pgm(data):
    kind, width, height, most, rest = data.split(None, 4) if data[-1:] else sys.exit('empty')
    width, height = int(width), int(height)
    pixels = data[len(data) - width * height:]
    if kind != b'P5' or most != b'255':
        sys.exit('no PGM file of 8 bits')
    return [pixels[width * y:width * (y + 1)] for y in range(height)]


def unfiltered(kind, row, above):
    """a row of a grey PNG without its filter (PNG, section 9)"""
    out = bytearray(row)
    for i, v in enumerate(row):
        a, b, c = out[i - 1] if i else 0, above[i], above[i - 1] if i else 0
        p = a + b - c
        near = min((abs(p - a), 0, a), (abs(p - b), 1, b), (abs(p - c), 2, c))[2]
        out[i] = (v + [0, a, b, (a + b) // 2, near][kind]) & 255
    return bytes(out)


def png_rows(data):
    at, body, rows = 8, b'', []
    while at < len(data):
        size, kind = struct.unpack('>I4s', data[at:at + 8])
        chunk = data[at + 8:at + 8 + size]
        if kind == b'IHDR':
            width, height, depth, colours = struct.unpack('>IIBB', chunk[:10])
        if kind == b'IDAT':
            body += chunk
        at += size + 12
    if (depth, colours) != (8, 0):
        sys.exit('no grey PNG file of 8 bits')
    raw = zlib.decompress(body)
    for y in range(height):
        line = raw[(width + 1) * y:(width + 1) * (y + 1)]
        rows.append(unfiltered(line[0], line[1:], rows[-1] if rows else bytes(width)))
    return rows


def picture(name):
    with open(name, 'rb') as f:
        data = f.read()
    return png_rows(data) if data[:4] == b'\x89PNG' else pgm(data)


def zoomed(rows):
    x, y, side = PART
    wide = lambda row: bytes(v for v in row[x:x + side] for _ in range(ZOOM))
    return [wide(row) for row in rows[y:y + side] for _ in range(ZOOM)]


def joined(pictures):
    return [(b'\xff' * GAP).join(rows) for rows in zip(*pictures)]


def png(rows):
    chunk = lambda kind, data: struct.pack('>I', len(data)) + kind + data + struct.pack('>I', zlib.crc32(kind + data))
    head = struct.pack('>IIBBBBB', len(rows[0]), len(rows), 8, 0, 0, 0, 0)
    return b'\x89PNG\r\n\x1a\n' + chunk(b'IHDR', head) + chunk(b'IDAT', zlib.compress(b''.join(b'\0' + row for row in rows), 9)) + chunk(b'IEND', b'')


def main(out, *names):
    pictures = [picture(name) for name in names]
    if len({(len(p), len(p[0])) for p in pictures}) != 1:
        sys.exit('pictures of several sizes')
    whole, parts = joined(pictures), joined([zoomed(p) for p in pictures])
    gap = [b'\xff' * len(whole[0])] * GAP
    with open(out, 'wb') as f:
        f.write(png(whole + gap + parts))


if len(sys.argv) < 3 or sys.argv[1].startswith('-'):
    sys.exit(__doc__)
main(*sys.argv[1:])
