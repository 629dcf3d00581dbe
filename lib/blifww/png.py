"""Writes pictures as PNG, and moving ones as APNG, for the scripts that draw. A picture is a list of rows, bytes of
palette numbers."""
import struct
import zlib

START = b"\x89PNG\r\n\x1a\n"
OTHER = (
    b"\0" + b"\xff" * 255
)  # of the bits in which two points differ: none if these are the same, and all if they are not


def chunk(name, body):
    return struct.pack(">I", len(body)) + name + body + struct.pack(">I", zlib.crc32(name + body))


def packed(rows):
    return zlib.compress(b"".join(b"\0" + row for row in rows), 9)


def front(rows, palette, clear=False):
    """Returns what stands before the points: the size, a byte a point, and the palette's colours, after which there
    may be a clear one."""
    head = struct.pack(">IIBBBBB", len(rows[0]), len(rows), 8, 3, 0, 0, 0)
    colours = b"".join(bytes(it) for it in palette) + bytes(3) * clear
    alpha = chunk(b"tRNS", b"\xff" * len(palette) + b"\0") if clear else b""
    return START + chunk(b"IHDR", head) + chunk(b"PLTE", colours) + alpha


def still(rows, palette):
    return front(rows, palette) + chunk(b"IDAT", packed(rows)) + chunk(b"IEND", b"")


def painted(row, mask, points):
    """Returns a row with the points of another one where a mask has the byte 255, and with its own where it has 0."""
    own, other, where = (int.from_bytes(it, "big") for it in (row, points, mask))
    return (own & ~where | other & where).to_bytes(len(row), "big")


def new_points(old, row, clear):
    """Returns a row of points, with clear ones where they are the old ones."""
    if old == row:
        return bytes([clear]) * len(row)
    differ = (int.from_bytes(old, "big") ^ int.from_bytes(row, "big")).to_bytes(len(row), "big")
    return painted(bytes([clear]) * len(row), differ.translate(OTHER), row)


def changed(before, rows, clear):
    """Returns what is new in a picture, with clear points where nothing is, and its left and top: a part of at least
    one point."""
    new = [y for y, (old, row) in enumerate(zip(before, rows)) if old != row] or [0]
    top, bottom = new[0], new[-1] + 1
    part = [new_points(old, row, clear) for old, row in zip(before[top:bottom], rows[top:bottom])]
    left = min(len(row) - len(row.lstrip(bytes([clear]))) for row in part)
    right = max(len(row.rstrip(bytes([clear]))) for row in part)
    if left >= right:
        left, right = 0, 1
    return [row[left:right] for row in part], left, top


def moving(frames, palette, milliseconds):
    """Returns pictures of one size as an animation that goes round; each stands for some milliseconds, and holds
    what is new in it."""
    out = front(frames[0], palette, True) + chunk(b"acTL", struct.pack(">II", len(frames), 0))
    number = 0
    for place, rows in enumerate(frames):
        part, left, top = changed(frames[place - 1], rows, len(palette)) if place else (rows, 0, 0)
        size = struct.pack(">IIII", len(part[0]), len(part), left, top)
        out += chunk(b"fcTL", struct.pack(">I", number) + size + struct.pack(">HHBB", milliseconds, 1000, 0, place > 0))
        number += 1
        if place == 0:
            out += chunk(b"IDAT", packed(part))
        else:
            out += chunk(b"fdAT", struct.pack(">I", number) + packed(part))
            number += 1
    return out + chunk(b"IEND", b"")


def content_of(picture):
    """Returns a picture's chunks with their points unpacked, since other releases of zlib pack them otherwise; none
    where it is no PNG."""
    chunks = []
    at = len(START) if picture.startswith(START) else len(picture)
    try:
        while at < len(picture):
            (size,) = struct.unpack(">I", picture[at : at + 4])
            name, body = picture[at + 4 : at + 8], picture[at + 8 : at + 8 + size]
            if name == b"IDAT":
                body = zlib.decompress(body)
            elif name == b"fdAT":
                body = body[:4] + zlib.decompress(body[4:])
            chunks.append((name, body))
            at += size + 12
    except (struct.error, zlib.error):
        return []
    return chunks
