"""Draws a container as a picture of its bits, 32 in a row, out of its layout: SVG for the page of a sheet."""

from html import escape

COLUMNS, COLUMN, LEFT, TOP, HEIGHT, BREAK = 32, 20, 52, 22, 46, 22
WIDTH = LEFT + COLUMNS * COLUMN + 6
LONG = 5  # a part of more rows than this is cut in its middle
FILLS = {
    "entry": "#dbe9fb", "fixed": "#fbe6c5", "padding": "#ececec", "list": "#d9f0de", "length": "#e9dcf8", "check": "#fadce6",
}  # fmt: skip


def shown(text):
    """A text as HTML, with characters that stand for nothing to see made visible."""
    seen = "".join(chr(0x2400 + ord(it)) if it < " " else "\u2421" if it == "\x7f" else it for it in text)
    return escape("".join(f"\\u{ord(it):04x}" if it in "\u202a\u202b\u202c\u202d\u202e\u2066\u2067\u2068\u2069" else it for it in seen))


class Drawing:
    """The pieces of a picture, and how far down it goes."""

    def __init__(self):
        self.rows, self.filled, self.out, self.bottom = {}, {}, [], TOP

    def row(self, number):
        """The height at which a row of bits begins; rows come in order."""
        if number not in self.rows:
            self.rows[number] = self.bottom
            self.gutter(self.bottom, str(number * COLUMNS))
            self.bottom += HEIGHT
        return self.rows[number]

    def gutter(self, y, text):
        self.out.append(f'<text class="gutter" x="{LEFT - 6}" y="{y + HEIGHT // 2 + 4}">{text}</text>')

    def pause(self, rows):
        """A place where rows are left out."""
        bits = f"{rows:,} rows of {COLUMNS} bits"
        middle = LEFT + COLUMNS * COLUMN // 2
        self.out.append(f'<text class="pause" x="{middle}" y="{self.bottom + 15}">⋮ {bits} more ⋮</text>')
        self.bottom += BREAK


def label(x, y, width, key, name, detail, first):
    """The texts of a piece: the name where it fits, upright or turned, else its number in the table."""
    lines, room = [], width - 6
    name_long, middle = 6.7 * len(name), x + width // 2
    if first is not None and 5.6 * len(first) <= width - 3:
        lines.append(f'<text class="first" x="{x + 3}" y="{y + 10}">{first}</text>')
    if name_long <= room:
        lines.append(f'<text x="{middle}" y="{y + 27}">{shown(name)}</text>')
    elif room > 50 and len(name) > 3:
        cut = name[: max(1, int(room / 6.7) - 1)] + "…"
        lines.append(f'<text x="{middle}" y="{y + 27}">{shown(cut)}</text>')
    else:
        lines.append(f'<text class="key" x="{middle}" y="{y + 27}">#{key}</text>')
    if detail and 6 * len(detail) <= width - 4:
        lines.append(f'<text class="size" x="{middle}" y="{y + 40}">{shown(detail)}</text>')
    return "".join(lines)


def rectangle(x, y, width, kind, style=""):
    return f'<rect class="{kind}{style}" x="{x}" y="{y}" width="{width}" height="{HEIGHT}"/>'


def fixed_pieces(drawing, row):
    """The pieces of a part whose bits stand at a known place: rows, each with a first column and a number of columns."""
    begins, ends = row.offset, row.offset + row.size
    first, last = begins // COLUMNS, (ends - 1) // COLUMNS
    middle = last - first - 1
    left_out = range(first + 2, last) if middle + 2 > LONG else range(0)
    found = []
    for at in [*range(first, first + 2), *range(last, last + 1)] if left_out else range(first, last + 1):
        if left_out and at == last:
            drawing.pause(len(left_out))
        y = drawing.row(at)
        from_bit, to_bit = max(begins, at * COLUMNS), min(ends, (at + 1) * COLUMNS)
        drawing.filled[at] = to_bit - at * COLUMNS
        found.append((y, from_bit - at * COLUMNS, to_bit - from_bit))
    return found


def open_pieces(drawing, row):
    """The pieces of a part that begins at a known place and whose size varies: the rest of its row, and another one if that is short."""
    at, column = divmod(row.offset, COLUMNS)
    drawing.filled[at] = COLUMNS
    found = [(drawing.row(at), column, COLUMNS - column)]
    if COLUMNS - column < 12:
        found.append((drawing.bottom, 0, COLUMNS))
        drawing.gutter(drawing.bottom, "…")
        drawing.bottom += HEIGHT
    return found


class Floating:
    """Places for the parts behind one whose size varies: one after another, to scale, at no known column."""

    def __init__(self, drawing):
        self.drawing, self.column, self.y = drawing, COLUMNS, None

    def pieces(self, row):
        many = COLUMNS if row.size is None else row.size
        if self.column + many > COLUMNS and self.column:
            self.column = COLUMNS
        found, left, first = [], many, True
        while left > 0:
            if self.column >= COLUMNS:
                if not first and left > 2 * COLUMNS:
                    self.drawing.pause((left - 1) // COLUMNS)
                    left = (left - 1) % COLUMNS + 1
                self.y, self.column = self.drawing.bottom, 0
                self.drawing.gutter(self.y, "varies")
                self.drawing.bottom += HEIGHT
            take = min(left, COLUMNS - self.column)
            found.append((self.y, self.column, take))
            self.column, left, first = self.column + take, left - take, False
        return found


def part(number, row, name, detail, pieces, style):
    """One part of the picture: its pieces, with what is told of it on the widest, and its name on the others too."""
    widest = max(range(len(pieces)), key=lambda at: pieces[at][2])
    out, size = [], "varies" if row.size is None else str(row.size)
    first = "varies" if row.offset is None else str(row.offset)
    for at, (y, column, many) in enumerate(pieces):
        x, width = LEFT + column * COLUMN, many * COLUMN
        out.append(rectangle(x, y, width, row.kind, style))
        told = f"{size} {detail}".strip()
        if at == widest:
            fits = 6 * len(told) <= width - 4
            out.append(label(x, y, width, number, name, told if fits else size, first if at == 0 else None))
            continue
        if at == 0:
            out.append(f'<text class="first" x="{x + 3}" y="{y + 10}">{first}</text>')
        if 6 * len(name) <= width - 6:
            out.append(f'<text class="again" x="{x + width // 2}" y="{y + 27}">{shown(name)}</text>')
    return f'<g data-row="{number}" data-offset="{first}" data-size="{size}">{"".join(out)}</g>'


def ruler():
    """The numbers of the bits over a row, once for all pictures of a page."""
    numbers = "".join(f'<text class="ruler" x="{LEFT + at * COLUMN + COLUMN // 2}" y="{TOP - 6}">{at}</text>' for at in range(COLUMNS))
    return f'<svg width="0" height="0" aria-hidden="true" style="position:absolute"><defs><g id="ruler">{numbers}</g></defs></svg>'


def marks(drawing):
    """Where octets begin, at the top and the bottom of each row of bits."""
    out = []
    for number, y in drawing.rows.items():
        for at in range(8, drawing.filled.get(number, 0), 8):
            x = LEFT + at * COLUMN
            out.append(f"M{x} {y}v4M{x} {y + HEIGHT}v-4")
    return f'<path class="octet" d="{"".join(out)}"/>' if out else ""


def picture(layout, names, details, alternative):
    """The SVG of a container's bits. Names and details have one item for each part of the layout."""
    drawing, parts = Drawing(), []
    floating = Floating(drawing)
    for at, row in enumerate(layout.rows):
        if row.size == 0:
            continue
        if row.offset is None:
            pieces, style = floating.pieces(row), " open"
        elif row.size is None:
            pieces, style = open_pieces(drawing, row), " open"
        else:
            pieces, style = fixed_pieces(drawing, row), ""
        parts.append(part(at + 1, row, names[at], details[at], pieces, style))
    height = drawing.bottom + 4
    head = f'<svg viewBox="0 0 {WIDTH} {height}" role="img" aria-label="{escape(alternative)}">'
    return f"{head}<use href=\"#ruler\"/>{''.join(drawing.out)}{''.join(parts)}{marks(drawing)}</svg>"
