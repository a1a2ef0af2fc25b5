"""The picture of what readers see at each point of a run. A row is a file, and a column is a request."""
import collections
import html

from fills import Styles
from folding import columns_of, order_of, rows_of, spans
from job_runs import key_of
from pages import counted
from readers import numbers
from request_marks import FATES, READS, dots, marks

STEP, NARROW, TALL, ROW, SMALL = 16, 5, 18, 22, 9
MARKS, BEGIN = 36, 'stroke="#000" stroke-width="3"'
SIDES = ("line of the script", "request", "its number")


def wide(text, size=12):
    """How wide a text is."""
    return 0.61 * size * len(text)


def cut(text, most):
    """A text. If it is long, its middle is left out."""
    return text if len(text) <= most else f"{text[:most // 2 - 1]}…{text[-(most - most // 2):]}"


class Picture:
    """The picture of a run. `shapes` has its shapes."""

    def __init__(self, run, title, most_rows):
        self.run, self.title, self.shapes = run, title, []
        self.columns, self.rows, self.styles = columns_of(run), rows_of(run, most_rows), Styles(run)
        self.labels = {at: cut(self.label(it), 44) for at, it in enumerate(self.columns) if self.begins(at)}
        self.left = max(wide(cut(it.label, 40)) for it in self.rows) + 16
        self.left = max(self.left, wide(SIDES[0], 11) + 16)
        self.top = 52 + wide(max(["at the end", *self.labels.values()], key=len)) + 6
        self.under = self.top + MARKS
        self.x = [self.left, self.left + STEP]
        self.narrow = STEP if len(self.columns) <= 100 else max(NARROW, 1200 // len(self.columns))
        for at in range(len(self.columns)):
            self.x.append(self.x[-1] + self.width(at))
        self.bottom = self.under + ROW * len(self.rows)

    def label(self, column):
        """The line of the script that sends a column's requests."""
        first, last = self.events(column)
        event, more = self.run.events[first], f" and {last - first} more" if last > first else ""
        return f"{event.line} {event.text}{more}" + (f" ({event.note})" if event.note else "")

    def events(self, column):
        """The first and the last event of a column."""
        return self.run.steps[column.first].event, self.run.steps[column.last].event

    def begins(self, at):
        """Whether an event begins in a column."""
        return at == 0 or self.events(self.columns[at - 1])[1] != self.events(self.columns[at])[0]

    def number(self, at):
        """The text below a column's mark: the numbers of its requests. With two jobs a change has no number, and its event has them."""
        column = self.columns[at]
        first, last = self.run.steps[column.first].request, self.run.steps[column.last].request
        if first and "n" in first:
            return numbers(first["n"], last["n"])
        sent = [self.run.events[it].numbers for it in self.events(column)]
        return numbers(sent[0][0], sent[1][1]) if self.begins(at) and all(sent) else ""

    def width(self, at):
        column, text = self.columns[at], self.number(at)
        first = self.events(column)[0]
        is_turn = column.first in self.run.turns and self.run.steps[column.first].request["outcome"] == "answered"
        if column.first < column.last and not is_turn:
            return max(30, wide(text, SMALL) + 8)
        if self.begins(at) and text and self.is_twin():
            rest = sum(self.events(it)[0] == first for it in self.columns[at:]) - 1
            return max(STEP, wide(text, SMALL) + 8 - self.narrow * rest)
        return self.narrow if is_turn and not self.begins(at) else STEP

    def is_twin(self):
        return any(step.request and "n" not in step.request for step in self.run.steps)

    # ---- shapes

    def text(self, x, y, text, size=12, more=""):
        self.shapes.append(f'<text x="{x:.1f}" y="{y:.1f}" font-size="{size}"{more}>{html.escape(text)}</text>')

    def line(self, x, y, x2, y2, more='stroke="#999"'):
        self.shapes.append(f'<line x1="{x:.1f}" y1="{y:.1f}" x2="{x2:.1f}" y2="{y2:.1f}" {more}/>')

    def box(self, x, y, width, height, fill, stroke="#000"):
        return f'<rect x="{x:.1f}" y="{y:.1f}" width="{width:.1f}" height="{height:.1f}" fill="{fill}" stroke="{stroke}"/>'

    def head(self):
        """The title, the script's lines, and the marks and numbers of the requests."""
        last = self.run.last
        self.text(8, 22, self.title, 15, ' font-weight="bold"')
        self.text(8, 40, f"{self.run.dest}, {counted(last['sent'], 'request')}, status {last['status']}", 11)
        side = ' text-anchor="end" fill="#444"'
        for text, down in zip(SIDES, (-4, 18, 32)):
            self.text(self.left - 8, self.top + down, text, 11, side)
        self.upright(self.x[0], "at first")
        end = 0
        for at, column in enumerate(self.columns):
            x = self.x[at + 1]
            if self.begins(at):
                self.upright(x, self.labels[at])
            self.mark(column, x, self.x[at + 2] - x)
            if self.number(at) and x >= end:
                self.text(x + 1, self.top + 32, self.number(at), SMALL)
                end = x + wide(self.number(at), SMALL) + 4
        self.upright(self.x[-1], "at the end")
    def upright(self, x, text):
        """A vertical line, with a text that reads upwards."""
        self.line(x, 56, x, self.bottom)
        self.shapes.append(f'<text transform="translate({x + 12:.1f},{self.top - 2:.1f}) rotate(-90)">{html.escape(text)}</text>')

    def mark(self, column, x, width):
        """The mark of a column's requests."""
        requests = [self.run.steps[at].request for at in range(column.first, column.last + 1)]
        if requests[0] is None:
            return
        middle, y = x + min(width, STEP * 2) / 2, self.top + 3
        shapes = [dots(middle, y + 12)] if len(requests) > 1 and column.first not in self.run.turns else [*marks(requests[0], middle, y, min(width, 12) - 2)]
        self.shapes.append(f"<g>{''.join(shapes)}<title>{html.escape(self.told(column, requests))}</title></g>")

    def told(self, column, requests):
        """A mark's tooltip."""
        where = f"line {self.label(column)}"
        one = requests[0]
        if len(requests) == 1:
            number = f"request {one['n']}: " if "n" in one else ""
            error = f", refused: {one['error']}" if "error" in one else ""
            return f"{where}\n{number}{one['op']} {key_of(one)}, {FATES.get(one['outcome'], one['outcome'])}{error}"
        many = collections.Counter(it["op"] for it in requests)
        which = f"requests {one['n']} to {requests[-1]['n']}: " if "n" in one else ""
        return f"{where}\n{which}{', '.join(f'{count} {name}' for name, count in many.items())}"

    def body(self):
        """The rows, and the line where the commit begins."""
        for number, row in enumerate(self.rows):
            y = self.under + ROW * number
            self.text(self.left - 8, y + 14, cut(row.label, 40), 12, ' text-anchor="end"')
            for start, end, shown in spans(self.run, self.columns, row):
                right = self.x[end] if end <= len(self.columns) else self.x[-1] + self.last_width()
                self.cell(row, self.x[start], y, right - self.x[start], shown, start)

        if self.run.begin is not None:
            x = next(self.x[at + 1] for at, it in enumerate(self.columns) if it.first == self.run.begin)
            self.line(x, self.top, x, self.bottom, BEGIN)

    def last_width(self):
        """The width of the last place. It has room for each row's last text."""
        return max([78, *(wide(self.said(row, spans(self.run, self.columns, row)[-1][2])) + 12 for row in self.rows)])

    @staticmethod
    def said(row, shown):
        """The text of a cell."""
        if not shown:
            return ""
        return f"{sum(shown.values())}/{len(row.paths)}" if row.is_folded else " or ".join(next(iter(shown)))

    def cell(self, row, x, y, width, shown, place):
        """A cell: what a row shows from one place on. The files fill the cell from below, in proportion."""
        shapes, down, ink = [self.box(x, y, width, TALL, "#fff", "#bbb")], y + TALL, "#000"
        fills = collections.Counter()
        for whose, count in sorted(shown.items(), key=lambda it: order_of(it[0])):
            fills[self.styles.of(row.paths[0], whose)] += count
        for (fill, ink), count in fills.items():
            high = TALL * count / len(row.paths)
            down -= high
            shapes.append(self.box(x, down, width, high, fill))
        text = self.said(row, shown)
        if text and wide(text) + 6 <= width:
            shapes += self.words(x, y, text, ink, row.is_folded or "url" in fill and ink == "#000")
        told = ", ".join(f"{count if row.is_folded else ''} {' or '.join(whose)}".strip() for whose, count in shown.items())
        title = f"{row.label}: {cut(told, 200) or 'nothing'}, {self.since(place)}"
        self.shapes.append(f"<g>{''.join(shapes)}<title>{html.escape(title)}</title></g>")

    def words(self, x, y, text, ink, is_boxed):
        """The text of a cell. If its fill has lines, the text is in a box."""
        if is_boxed:
            yield f'<rect x="{x + 2:.1f}" y="{y + 2:.1f}" width="{wide(text) + 4:.1f}" height="{TALL - 4}" fill="#fff"/>'
            ink = "#000"
        yield f'<text x="{x + 4:.1f}" y="{y + 13:.1f}" fill="{ink}">{html.escape(text)}</text>'

    def since(self, place):
        """The point from which on a cell is valid."""
        if place == 0:
            return "at first"
        step = self.run.steps[self.columns[place - 1].last]
        n = (step.request or {}).get("n")
        return f"after request {n}" if n else f"from line {self.run.events[step.event].line} on"

    # ---- the legend

    def legend(self):
        """The meaning of the fills and marks that are used. Gives the right and the lower edge of the legend."""
        entries = [(lambda x, y, fill=fill: self.box(x, y, 16, 12, fill), text) for fill, text in self.styles.legend()]
        entries.append((lambda x, y: self.box(x, y, 16, 12, "#fff", "#bbb"), "readers see nothing"))
        entries += [(shape, text) for text, shape in self.used_marks()]
        right = max(self.x[-1] + self.last_width() + 8, 560)
        x, y = 8, self.bottom + 14
        for shape, text in entries:
            if x > 8 and x + 22 + wide(text, 11) > right:
                x, y = 8, y + 20
            self.shapes.append(shape(x, y))
            self.text(x + 22, y + 10, text, 11)
            x += 22 + wide(text, 11) + 16
        for text in self.notes():
            y += 20
            self.text(8, y + 10, text, 11)
            right = max(right, wide(text, 11) + 16)
        return right, y + 24

    def used_marks(self):
        singles = [self.run.steps[it.first].request for it in self.columns if it.first == it.last]
        singles = [it for it in singles if it]
        samples = (
            ("a change that took effect", any(it["effect"] and it["op"] not in READS for it in singles), {"op": "PutObject", "effect": True}),
            ("a read", any(it["effect"] and it["op"] in READS for it in singles), {"op": "GetObject", "effect": True}),
            ("refused", any("error" in it for it in singles), {"op": "PutObject", "effect": False, "error": ""}),
            ("request or reply lost", any(it["outcome"].startswith("lost") for it in singles), {"effect": False, "outcome": "lost"}),
            ("slow: took no effect", any(it["outcome"] == "slow" for it in singles), {"effect": False, "outcome": "slow"}))
        for text, is_used, sample in samples:
            if is_used:
                yield text, lambda x, y, it=sample: "".join(marks({"outcome": "answered", **it}, x + 8, y - 6, 10))
        if len(singles) < len([it for it in self.run.steps if it.request]):
            yield "several requests", lambda x, y: dots(x + 8, y + 6)
        if self.run.begin is not None:
            yield "the commit begins", lambda x, y: f'<line x1="{x + 8}" y1="{y - 2}" x2="{x + 8}" y2="{y + 14}" {BEGIN}/>'

    def notes(self):
        if self.is_twin():
            yield "A column is a change; numbers are those of all requests of a line of the script. It shows what readers see after it."
        else:
            yield "A column shows what readers see after its request, or after the last one where there are several."
        if any(row.is_folded for row in self.rows):
            yield "A cell is filled as far as readers see files of its task. 7/10: they see seven of ten."

    def svg(self):
        self.head()
        self.body()
        right, down = self.legend()
        size = f'width="{right:.0f}" height="{down:.0f}" viewBox="0 0 {right:.0f} {down:.0f}"'
        return (f'<svg xmlns="http://www.w3.org/2000/svg" {size} font-family="monospace" font-size="12">\n'
                f"<title>{html.escape(self.title)}</title>\n<defs>{''.join(self.styles.patterns())}</defs>\n"
                f'<rect width="100%" height="100%" fill="#fff"/>\n' + "\n".join(self.shapes) + "\n</svg>\n")


def picture(run, title, most_rows):
    """The picture, as an SVG document."""
    return Picture(run, title, most_rows).svg()
