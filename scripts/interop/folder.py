"""The folder that the servers of `make interop` serve: folder.py FOLDER makes a page with an image, small files, and a big one."""
import pathlib
import random
import shutil
import struct
import sys
import zlib


def png(width, height):
    """An image of that many pixels, in truecolor (PNG, third edition, section 11.2)."""
    def chunk(kind, data):
        return struct.pack(">I", len(data)) + kind + data + struct.pack(">I", zlib.crc32(kind + data))
    rows = b"".join(b"\0" + bytes(v for x in range(width) for v in (4 * x % 256, 5 * y % 256, 128)) for y in range(height))
    head = struct.pack(">IIBBBBB", width, height, 8, 2, 0, 0, 0)
    return b"\x89PNG\r\n\x1a\n" + chunk(b"IHDR", head) + chunk(b"IDAT", zlib.compress(rows)) + chunk(b"IEND", b"")


def main():
    folder = pathlib.Path(sys.argv[1])
    (folder / "small").mkdir(parents=True)
    for name in ("page.html", "session.html", "sections.html", "transfers.html", "websocket.html"):
        shutil.copy(pathlib.Path(__file__).parent / name, folder / {"page.html": "index.html"}.get(name, name))
    (folder / "image.png").write_bytes(png(64, 48))
    (folder / "hello.txt").write_text("hello\n")
    (folder / "letters.txt").write_text(1_000_000 * "a")
    for i in range(100):
        (folder / "small" / f"{i}.txt").write_text(f"small {i}\n")
    (folder / "big.bin").write_bytes(random.Random(9114).randbytes(10_000_000))


main()
