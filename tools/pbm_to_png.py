#!/usr/bin/env python3
"""pbm_to_png.py < FILE.pbm > FILE.png: a one-bit PNG of a PBM (P4), with Python's zlib alone."""
import struct
import sys
import zlib


def read_pbm(data):
    """Width, height and the rows of a P4 file without comments, as this repository writes it."""
    magic, sizes, rows = data.split(b'\n', 2)
    width, height = map(int, sizes.split())
    stride = (width + 7) // 8
    if magic != b'P4' or len(rows) != stride * height:
        sys.exit('not a P4 file of one picture')
    return width, height, [rows[stride * y:stride * (y + 1)] for y in range(height)]


def chunk(kind, body):
    return struct.pack('>I', len(body)) + kind + body + struct.pack('>I', zlib.crc32(kind + body))


def main():
    width, height, rows = read_pbm(sys.stdin.buffer.read())
    # in PBM 1 is black, in a grey PNG 1 is white
    body = b''.join(b'\0' + bytes(255 - b for b in row) for row in rows)
    sys.stdout.buffer.write(
        b'\x89PNG\r\n\x1a\n'
        + chunk(b'IHDR', struct.pack('>IIBBBBB', width, height, 1, 0, 0, 0, 0))
        + chunk(b'IDAT', zlib.compress(body, 9))
        + chunk(b'IEND', b''))


if __name__ == '__main__':
    main()
