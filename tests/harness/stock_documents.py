"""Documents of each kind for tests/test_stock.py: typical office documents, and documents that some filters require."""
import base64
import gzip
import os
import shutil
import struct
import subprocess
import zlib

from harness.checks import LONGEST
from harness.files import write

TEXT = b"Dear Bo,\ncome. Ann\n"
PAGE_OF_THE_WEB = b"<!DOCTYPE html>\n<html><body><p>Dear Bo,</p><p>come. Ann</p></body></html>\n"
BANNER = b"#PDF-BANNER\nTemplate default-testpage.pdf\nShow printer-name\n"
DRAWING = b'<svg xmlns="http://www.w3.org/2000/svg" width="90" height="90"><rect width="50" height="50"/></svg>\n'
# A grey picture of 16 by 16 points.
JPEG = base64.b64decode(
    "/9j/4AAQSkZJRgABAQAAAQABAAD/2wBDABQODxIPDRQSEBIXFRQYHjIhHhwcHj0sLiQySUBMS0dARkVQWnNiUFVtVkVGZIhlbXd7gYKBTmCNl4x9lnN+"
    "gXz/wAALCAAQABABAREA/8QAFQABAQAAAAAAAAAAAAAAAAAAAAb/xAAWEAADAAAAAAAAAAAAAAAAAAAAFGH/2gAIAQEAAD8Amk4E4UKcCcP/2Q=="
)
SIDE = 8


def pdf():
    """A page with a line on it."""
    stream = b"BT /F1 24 Tf 72 300 Td (Dear Bo) Tj ET"
    objects = [
        b"<< /Type /Catalog /Pages 2 0 R >>",
        b"<< /Type /Pages /Kids [3 0 R] /Count 1 >>",
        b"<< /Type /Page /Parent 2 0 R /MediaBox [0 0 595 842] /Contents 4 0 R /Resources << /Font << /F1 5 0 R >> >> >>",
        b"<< /Length %d >>\nstream\n%s\nendstream" % (len(stream), stream),
        b"<< /Type /Font /Subtype /Type1 /BaseFont /Helvetica >>",
    ]
    text, places = b"%PDF-1.4\n", []
    for number, body in enumerate(objects, 1):
        places.append(len(text))
        text += b"%d 0 obj\n%s\nendobj\n" % (number, body)
    table = b"xref\n0 %d\n0000000000 65535 f \n" % (len(objects) + 1)
    table += b"".join(b"%010d 00000 n \n" % place for place in places)
    end = b"trailer\n<< /Size %d /Root 1 0 R >>\nstartxref\n%d\n%%%%EOF\n" % (len(objects) + 1, len(text))
    return text + table + end


def postscript():
    """A page with a line on it."""
    body = b"/Helvetica findfont 24 scalefont setfont 72 300 moveto (Dear Bo) show\nshowpage\n"
    head = b"%!PS-Adobe-3.0\n%%Pages: 1\n%%BoundingBox: 0 0 595 842\n%%EndComments\n%%EndProlog\n%%Page: 1 1\n"
    return head + body + b"%%Trailer\n%%EOF\n"


def bitmap():
    """A portable bitmap of 8 by 8 points."""
    return b"P4\n8 8\n" + bytes([0xAA, 0x55] * 4)


def png():
    def chunk(name, data):
        return struct.pack(">I", len(data)) + name + data + struct.pack(">I", zlib.crc32(name + data))

    rows = b"".join(b"\0" + bytes([0, 40 * row % 256, 200]) * SIDE for row in range(SIDE))
    head = struct.pack(">IIBBBBB", SIDE, SIDE, 8, 2, 0, 0, 0)
    return b"\x89PNG\r\n\x1a\n" + chunk(b"IHDR", head) + chunk(b"IDAT", zlib.compress(rows)) + chunk(b"IEND", b"")


def gif():
    """With seven bits a pixel, whose codes have eight bits while they are few."""
    colours = b"".join(bytes([number, 0, 255 - number]) for number in range(128))
    codes = b"\x80" + bytes(range(SIDE * SIDE)) + b"\x81"
    head = b"GIF89a" + struct.pack("<HHBBB", SIDE, SIDE, 0xF6, 0, 0) + colours
    return head + b"," + struct.pack("<HHHHB", 0, 0, SIDE, SIDE, 0) + b"\x07" + bytes([len(codes)]) + codes + b"\0;"


def tiff():
    """With three bytes a pixel, without compression."""
    points = bytes([200, 40, 0]) * (SIDE * SIDE)
    bits, strip = 8, 8 + 6
    fields = [(256, 4, 1, SIDE), (257, 4, 1, SIDE), (258, 3, 3, bits), (259, 3, 1, 1), (262, 3, 1, 2), (273, 4, 1, strip)]
    fields += [(277, 3, 1, 3), (278, 4, 1, SIDE), (279, 4, 1, len(points))]
    table = struct.pack("<H", len(fields)) + b"".join(struct.pack("<HHII", *field) for field in fields) + bytes(4)
    return b"II*\0" + struct.pack("<I", strip + len(points)) + struct.pack("<HHH", 8, 8, 8) + points + table


# Typical office documents: the name of each kind, its document, and the type that the rules must detect.
OFFICE = {
    "text": (TEXT, "text/plain"),
    "HTML": (PAGE_OF_THE_WEB, "text/html"),
    "PNG": (png(), "image/png"),
    "JPEG": (JPEG, "image/jpeg"),
    "GIF": (gif(), "image/gif"),
    "TIFF": (tiff(), "image/tiff"),
    "PDF": (pdf(), "application/pdf"),
    "PostScript": (postscript(), "application/postscript"),
}

# Documents by their type.
DOCUMENTS = {
    "text/plain": TEXT,
    "text/html": PAGE_OF_THE_WEB,
    "application/gzip": gzip.compress(TEXT),
    "application/vnd.cups-pdf-banner": BANNER,
    "application/pdf": pdf(),
    "application/vnd.cups-pdf": pdf(),
    "image/vnd.cups-pdf": pdf(),
    "application/postscript": postscript(),
    "image/png": png(),
    "image/x-portable-bitmap": bitmap(),
    "image/svg+xml": DRAWING,
}


# Documents whose types are detected with examples/office/types, each with a name.
TYPED = [
    ("a.txt", pdf(), "application/pdf"),
    ("a", b"\n" + pdf(), "application/pdf"),
    ("a.pdf", b"\xff" * 1_019 + pdf(), "application/pdf"),
    ("a.pdf", b"\xff" * 1_020 + pdf(), "application/octet-stream"),
    ("a", b"\xff" + pdf(), "application/octet-stream"),
    ("a", b"text about %PDF-1.4\n", "text/plain"),
    ("a", b"\x04" + postscript(), "application/postscript"),
    ("a", b"\x1b%-12345X@PJL\n@PJL ENTER LANGUAGE=POSTSCRIPT\n" + postscript(), "application/postscript"),
    ("a", b"\x1b%-12345X@PJL\n@PJL ENTER LANGUAGE=PCL\n\x1bE", "application/octet-stream"),
    ("a.png", JPEG, "image/jpeg"),
    ("a", png(), "image/png"),
    ("a", gif(), "image/gif"),
    ("a", tiff(), "image/tiff"),
    ("a", b"MM\0*", "image/tiff"),
    ("a.jpg", b"junk\0", "application/octet-stream"),
    ("a", b"RaS2PwgRaster\0", "image/pwg-raster"),
    ("a", b"RaS2\0\0", "application/vnd.cups-raster"),
    ("A.HTM", b"<p>x", "text/html"),
    ("a", b"<HTML>x", "text/html"),
    ("a", b"<!doctype html>", "text/html"),
    ("a.txt", "Grüße".encode(), "text/plain"),
    ("a.txt", "Grüße".encode("utf-16"), "application/octet-stream"),
    ("a", b"", "text/plain"),
]


def boxes(room, output):
    """For each page of a PDF, or of PostScript, the area with something on it, or None if Ghostscript is not installed."""
    if shutil.which("gs") is None:
        return None
    words = ["gs", "-q", "-dNOPAUSE", "-dBATCH", "-dSAFER", "-sDEVICE=bbox", write(os.path.join(room, "page"), output)]
    lines = subprocess.run(words, capture_output=True, timeout=3 * LONGEST).stderr.splitlines()
    return [line.split()[1:] for line in lines if line.startswith(b"%%BoundingBox:")]


def is_blank(room, output):
    """Whether a PDF, or PostScript, has no page with something on it."""
    if b"%PDF" not in output[:1_024] and not output.startswith(b"%!"):
        return False
    found = boxes(room, output)
    return found is not None and all(box == [b"0"] * 4 for box in found)
