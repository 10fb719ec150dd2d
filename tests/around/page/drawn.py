"""Pictures and documents that the page shows, of few bytes."""
import struct
import zlib

START = b"\x89PNG\r\n\x1a\n"
# a picture of one red dot, and an SVG and a PDF that would run
RED, BLUE = b"\xff\0\0", b"\0\0\xff"
SVG = b"<svg xmlns='http://www.w3.org/2000/svg'><script>window.ran=1</script><rect width='9' height='9'/></svg>"
PDF = b"""%PDF-1.4
1 0 obj <</Type /Catalog /Pages 2 0 R>> endobj
2 0 obj <</Type /Pages /Kids [3 0 R] /Count 1>> endobj
3 0 obj <</Type /Page /Parent 2 0 R /MediaBox [0 0 90 90]>> endobj
trailer <</Root 1 0 R>>
<script>window.ran=1</script>"""


def chunk(kind, data):
    return struct.pack(">I", len(data)) + kind + data + struct.pack(">I", zlib.crc32(kind + data))


def png(width, height, kind, rows, palette=b"", depth=8):
    """A picture of so many bits a part: kind 0 is grey, 2 has red, green and blue, 3 a place in the palette."""
    head = struct.pack(">IIBBBBB", width, height, depth, kind, 0, 0, 0)
    table = chunk(b"PLTE", palette) if palette else b""
    dots = zlib.compress(b"".join(b"\0" + it for it in rows), 9)
    return START + chunk(b"IHDR", head) + table + chunk(b"IDAT", dots) + chunk(b"IEND", b"")


def chunks(data):
    at = len(START)
    while at < len(data):
        length, = struct.unpack_from(">I", data, at)
        yield data[at + 4:at + 8], data[at + 8:at + 8 + length]
        at += 12 + length


PNG = png(1, 1, 2, [RED])


def gif(*dots):
    """One dot, in turn of these colours (0 red, 1 blue), for ever."""
    drawn = b"".join(b"\x21\xf9\x04\0\x0a\0\0\0" + b"\x2c" + struct.pack("<4HB", 0, 0, 1, 1, 0) +
                     bytes((2, 2, 0x4c if it else 0x44, 1, 0)) for it in dots)
    return b"GIF89a" + struct.pack("<2H3B", 1, 1, 0x80, 0, 0) + RED + BLUE + drawn + b";"


def apng():
    """One dot, red and then blue, for ever."""
    (_, head), (_, red), end = chunks(PNG)
    _, (_, blue), _ = chunks(png(1, 1, 2, [BLUE]))
    control = [(b"fcTL", struct.pack(">5I2H2B", at, 1, 1, 0, 0, 1, 10, 0, 0)) for at in (0, 1)]
    parts = [(b"IHDR", head), (b"acTL", struct.pack(">2I", 2, 0)), control[0], (b"IDAT", red), control[1],
             (b"fdAT", struct.pack(">I", 2) + blue), end]
    return START + b"".join(chunk(*it) for it in parts)


def webp():
    """One dot that is not seen, twice."""
    def part(kind, data):
        return kind + struct.pack("<I", len(data)) + data + b"\0" * (len(data) % 2)
    frame = part(b"VP8L", bytes.fromhex("2f00000010071011118888fe0700"))
    parts = [part(b"VP8X", b"\x12" + bytes(9)), part(b"ANIM", bytes(6)),
             *[part(b"ANMF", bytes(12) + b"\x64\0\0\0" + frame)] * 2]
    return part(b"RIFF", b"WEBP" + b"".join(parts))
