"""Pictures of a page in few colours, so that they are small: PNG as the browser gives it, and with a palette."""
import collections
import struct
import zlib

from page.drawn import chunks, png

COLOURS = 64


def nearer(left, above, corner):
    """Of a filter of PNG (Paeth): which of the three is nearest to left + above - corner."""
    guess = left + above - corner
    return min((left, above, corner), key=lambda it: abs(guess - it))


def row_of(kind, line, before, step):
    """One row, its filter undone."""
    for at in range(len(line)):
        left = line[at - step] if at >= step else 0
        corner = before[at - step] if at >= step else 0
        more = (0, left, before[at], (left + before[at]) // 2, nearer(left, before[at], corner))[kind]
        line[at] = (line[at] + more) & 255
    return line


def rows_of(data):
    """Width, and each row as a list of its dots' colours."""
    parts = collections.defaultdict(bytes)
    for kind, its in chunks(data):
        parts[kind] += its
    width, height, _, kind = struct.unpack_from(">IIBB", parts[b"IHDR"])
    step = {2: 3, 6: 4}[kind]
    flat, before, rows = zlib.decompress(parts[b"IDAT"]), bytearray(width * step), []
    for at in range(0, height * (width * step + 1), width * step + 1):
        before = row_of(flat[at], bytearray(flat[at + 1:at + 1 + width * step]), before, step)
        rows.append([bytes(before[dot:dot + 3]) for dot in range(0, width * step, step)])
    return width, rows


def smaller(data):
    """The same picture in its most frequent colours, each other one as the nearest of them."""
    width, rows = rows_of(data)
    counts = collections.Counter(it for row in rows for it in row)
    palette = [it for it, _ in counts.most_common(COLOURS)]
    far = lambda one, other: sum((a - b) ** 2 for a, b in zip(one, other))
    places = {it: min(range(len(palette)), key=lambda at: far(palette[at], it)) for it in counts}
    return png(width, len(rows), 3, [bytes(places[it] for it in row) for row in rows], b"".join(palette))
