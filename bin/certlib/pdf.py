"""A small writer of one page of PDF in the standard fonts, which every reader has. Same input, same bytes: no date, nothing compressed."""
from typing import Dict, List

A4_WIDTH, A4_HEIGHT = 595.28, 841.89

REGULAR, BOLD, MONO = "Helvetica", "Helvetica-Bold", "Courier"
FONTS = (REGULAR, BOLD, MONO)

# Widths in thousandths of the size of the codes 32 to 126, from Adobe's font metrics.
WIDTHS: Dict[str, List[int]] = {
    REGULAR: [
        278, 278, 355, 556, 556, 889, 667, 191, 333, 333, 389, 584, 278, 333, 278, 278, 556, 556, 556, 556, 556, 556, 556, 556,
        556, 556, 278, 278, 584, 584, 584, 556, 1015, 667, 667, 722, 722, 667, 611, 778, 722, 278, 500, 667, 556, 833, 722, 778,
        667, 778, 722, 667, 611, 722, 667, 944, 667, 667, 611, 278, 278, 278, 469, 556, 333, 556, 556, 500, 556, 556, 278, 556,
        556, 222, 222, 500, 222, 833, 556, 556, 556, 556, 333, 500, 278, 556, 500, 722, 500, 500, 500, 334, 260, 334, 584,
    ],
    BOLD: [
        278, 333, 474, 556, 556, 889, 722, 238, 333, 333, 389, 584, 278, 333, 278, 278, 556, 556, 556, 556, 556, 556, 556, 556,
        556, 556, 333, 333, 584, 584, 584, 611, 975, 722, 722, 722, 722, 667, 611, 778, 722, 278, 556, 722, 611, 833, 722, 778,
        667, 778, 722, 667, 611, 722, 667, 944, 667, 667, 611, 333, 278, 333, 584, 556, 333, 556, 611, 556, 611, 556, 333, 611,
        611, 278, 278, 556, 278, 889, 611, 611, 611, 611, 389, 556, 333, 611, 556, 778, 556, 556, 500, 389, 280, 389, 584,
    ],
    MONO: [600] * 95,
}
FIRST_CODE = 32
OTHER_WIDTH = 1000  # of a letter beyond these: no narrower than any


def printable(text: str) -> str:
    """The text in the letters that the fonts have; others become `?`."""
    return "".join(letter if " " <= letter <= "~" else "?" for letter in text)


def width(text: str, font: str, size: float) -> float:
    widths = WIDTHS[font]
    codes = (ord(letter) - FIRST_CODE for letter in printable(text))
    return sum(widths[code] if 0 <= code < len(widths) else OTHER_WIDTH for code in codes) * size / 1000


def number(value: float) -> str:
    return "{:.2f}".format(value)


class Canvas:
    """What is drawn on the page; places are in points from its lower left corner."""

    def __init__(self) -> None:
        self.operations: List[str] = []

    def text(self, x: float, y: float, font: str, size: float, text: str, gray: float = 0.0) -> None:
        escaped = printable(text).replace("\\", "\\\\").replace("(", "\\(").replace(")", "\\)")
        self.operations.append("BT {} g /F{} {} Tf {} {} Td ({}) Tj ET".format(
            number(gray), FONTS.index(font) + 1, number(size), number(x), number(y), escaped))

    def rule(self, left: float, right: float, y: float) -> None:
        self.operations.append("0.60 G 0.40 w {} {} m {} {} l S".format(number(left), number(y), number(right), number(y)))

    def box(self, x: float, y: float, wide: float, high: float) -> None:
        self.operations.append("0.00 g {} {} {} {} re f".format(number(x), number(y), number(wide), number(high)))


def page_bytes(canvas: Canvas, title: str) -> bytes:
    """A whole file with this one page."""
    content = "\n".join(canvas.operations).encode("latin-1")
    first_font = 5
    fonts = " ".join("/F{} {} 0 R".format(index + 1, first_font + index) for index in range(len(FONTS)))
    name = printable(title).replace("\\", "").replace("(", "").replace(")", "")
    objects = [
        b"<< /Type /Catalog /Pages 2 0 R >>",
        b"<< /Type /Pages /Kids [3 0 R] /Count 1 >>",
        "<< /Type /Page /Parent 2 0 R /MediaBox [0 0 {} {}] /Contents 4 0 R /Resources << /Font << {} >> >> >>".format(
            number(A4_WIDTH), number(A4_HEIGHT), fonts).encode(),
        b"<< /Length " + str(len(content)).encode() + b" >>\nstream\n" + content + b"\nendstream",
        *("<< /Type /Font /Subtype /Type1 /BaseFont /{} /Encoding /WinAnsiEncoding >>".format(font).encode() for font in FONTS),
        "<< /Title ({}) >>".format(name).encode(),
    ]
    return file_bytes(objects)


def file_bytes(objects: List[bytes]) -> bytes:
    """The objects, numbered from 1, with the table of their offsets. The first is the catalog, the last tells of the file."""
    out = b"%PDF-1.4\n%\xe2\xe3\xcf\xd3\n"
    offsets = []
    for index, body in enumerate(objects, 1):
        offsets.append(len(out))
        out += str(index).encode() + b" 0 obj\n" + body + b"\nendobj\n"
    table = len(out)
    out += "xref\n0 {}\n0000000000 65535 f \n".format(len(objects) + 1).encode()
    out += b"".join("{:010d} 00000 n \n".format(offset).encode() for offset in offsets)
    out += "trailer\n<< /Size {} /Root 1 0 R /Info {} 0 R >>\nstartxref\n{}\n%%EOF\n".format(len(objects) + 1, len(objects), table).encode()
    return out
