"""The page of a sweep: a grid of requests by faults, with a letter in each cell."""
import html

STYLE = """
body { font: 15px sans-serif; margin: 2em; color: #111; max-width: 75em }
table { border-collapse: collapse }
th, td { padding: 2px 8px; text-align: left; font-weight: normal; font-size: 13px; white-space: nowrap }
thead th { text-align: center; border-bottom: 2px solid #111; background: #fff; vertical-align: bottom }
th.tries { border-left: 6px solid #fff; border-right: 6px solid #fff }
td.key { font-family: monospace; font-size: 12px }
tr.event td { border-top: 1px solid #777; padding-top: 7px; font-weight: bold }
td.c { width: 34px; padding: 2px 0; text-align: center; border: 1px solid #999; color: #555; font-size: 14px }
td.m { border: 3px solid #111; color: #111; font-weight: bold }
td.a { background: #c9e7c3 }
td.w { background: #eef2ae }
td.o { background: #dbe9f6 }
td.s { background: #fdc981; color: #111 }
td.e { background: #f08a62; color: #111 }
td.l { background: #a50f15; color: #fff }
td.u { background: #111; color: #fff }
td.x { border: 0; color: #555 }
pre { background: #f3f3f3; padding: 1em; overflow-x: auto }
@media print { td.c { print-color-adjust: exact; -webkit-print-color-adjust: exact } }
"""
SUCCESS = "<code>_SUCCESS</code>"
LETTERS = {
    "A": f"all new files, and this job's {SUCCESS}",
    "W": f"all new files, without this job's {SUCCESS}",
    "O": "the old files, as at the start",
    "S": "some files: not all new ones, or not all old ones",
    "E": "nothing, though there were old files",
    "L": "old files are gone that the mode keeps, or at whose paths readers see a file without the added fault",
    "U": "readers were not safe, so far as can be told",
}
UNTRIED = "not tried: the script itself says what happens to this request"
HEADS = {"slow": "slow", "before": "lost<br>before", "after": "lost<br>after"}


def letter_of(outcome, base):
    """What readers see at the end, as a letter."""
    if any(outcome.unsafe()):
        return "U"
    if outcome.lost(base) or outcome.against_mode():
        return "L"
    if outcome.readers() == "same":
        return "A" if outcome.success == "yes" else "O"
    return {"old": "O", "some": "S", "nothing": "E"}.get(outcome.readers()) or ("A" if outcome.success == "yes" else "W")


def counted(number, what):
    return f"{number} {what}{'' if number == 1 else 's'}"


def some_of(them, most=8):
    """A list as text. If it is long, only its beginning."""
    return " ".join(them[:most]) + (f" and {len(them) - most} more" if len(them) > most else "")


def listed(them):
    return f"{len(them)} ({some_of(them)})" if them else "0"


def details(run, base, title):
    """The tooltip of a cell."""
    it = run.outcome
    return "\n".join([
        title,
        f"commit: {it.commit}",
        f"readers see: {it.readers()} ({len(it.new)} of {len(it.wanted)} new files, {len(it.old)} of {len(it.opening)} old files)",
        f"old files that are gone: {some_of(it.gone) or 'none'}",
        f"_SUCCESS: {it.success}",
        f"uploads left: {listed([line.split(' ', 3)[-1] for line in it.uploads])}",
        f"hidden keys left: {listed(it.hidden)}",
        f"readers safe at each moment: {it.audit}",
        *it.unsafe(),
        f"ends {'otherwise than' if it.mark(base) else 'as'} without an added fault",
    ])


def cell(run, base, title):
    """The cell of a run. A marked run has a thick border and a bold letter. A plus means that more uploads are left than without an added fault."""
    letter = letter_of(run.outcome, base)
    marked = " m" if run.outcome.mark(base) else ""
    more = "+" if len(run.outcome.uploads) > len(base.uploads) else ""
    return f'<td class="c {letter.lower()}{marked}" title="{html.escape(details(run, base, title))}">{letter}{more}</td>'


def row(request, sweep, runs, key_of):
    """The row of a request."""
    base, cells = sweep.base.outcome, []
    for fault in sweep.faults:
        run = runs.get((request["n"], fault))
        title = f"request {request['n']}, {request['actor']} {request['op']} {key_of(request)}: {fault}"
        cells.append(cell(run, base, title) if run else f'<td class="c x" title="{UNTRIED}">&ndash;</td>')
    where = f"<td>{request['n']}</td><td>{request['actor']}</td><td>{request['op']}</td>"
    return f'<tr>{where}<td class="key">{html.escape(key_of(request))}</td>{"".join(cells)}</tr>'


def head(sweep):
    """The grid's head: one try of a request, every try, and the crash before it."""
    fates = "".join(f"<th>{it}</th>" for it in HEADS.values())
    spans = "".join(f'<th colspan="3" class="tries">{it}</th>' for it in ("one try", *(("every try",) if sweep.retries else ())))
    words = "".join(f'<th rowspan="2">{it}</th>' for it in ("request", "actor", "operation", "key"))
    return f'<thead><tr>{words}{spans}<th rowspan="2">crash<br>before</th></tr><tr>{fates * (2 if sweep.retries else 1)}</tr></thead>'


def event_line(event):
    """The line of an event in the report."""
    return f"{event['event']} {event['text']}: {event['end']}"


def grid(sweep, runs, key_of):
    """The whole grid, with a line for each event."""
    rows, event, trace = [head(sweep)], 0, sweep.last.trace
    wide = 4 + len(sweep.faults)
    for request in sweep.requests:
        if request["event"] != event:
            event = request["event"]
            rows.append(f'<tr class="event"><td colspan="{wide}">{html.escape(event_line(trace.events[event - 1]))}</td></tr>')
        rows.append(row(request, sweep, runs, key_of))
    return f"<table>\n{chr(10).join(rows)}\n</table>"


def legend(sweep, runs):
    """What each letter means, with the number of runs that have it."""
    base = sweep.base.outcome
    letters = [letter_of(run.outcome, base) for run in runs if run.request]
    marked = sum(bool(run.outcome.mark(base)) for run in runs)
    rows = [(it.lower(), it, said, counted(letters.count(it), "run")) for it, said in LETTERS.items()]
    rows.append(("m", "&nbsp;", f"thick border: the commit, what readers see or {SUCCESS} ended otherwise than without an added fault",
                 counted(marked, "run")))
    rows.append(("", "+", "more uploads are left than without an added fault", ""))
    if len(letters) < len(sweep.requests) * len(sweep.faults):
        rows.append(("x", "&ndash;", UNTRIED, ""))
    lines = (f'<tr><td class="c {name}">{it}</td><td>{said}</td><td>{many}</td></tr>' for name, it, said, many in rows)
    return f"<table>{''.join(lines)}</table>"


def introduction(sweep):
    """What the page shows, and how the run without an added fault ends."""
    base = sweep.base.outcome
    tries = f"every try of a request is {sweep.retries + 1} tries." if sweep.retries else "a request that is lost once has run out of retries."
    return (
        "<p>Each cell is one run of the script with one fault added: the row says which request it hits, the column what happens to it. "
        f"The letter says what readers see at the end. <code>retries {sweep.retries}</code>: {tries} A cell's tooltip has details.</p>\n"
        f"<p>At the start readers see {counted(len(base.opening), 'file')}. Without an added fault the commit ends "
        f"<b>{html.escape(base.commit)}</b>, and the letter is <b>{letter_of(base, base)}</b>.</p>\n"
    )


def page(name, text, sweep, runs, key_of):
    """The page of all runs. It needs no other files."""
    found = {(run.request["n"], run.fault): run for run in runs if run.request}
    events = "\n".join(map(event_line, sweep.last.trace.events))
    title = f"Every single fault: {html.escape(name)}"
    return (
        f'<!DOCTYPE html>\n<html lang="en"><meta charset="utf-8"><title>{title}</title>\n<style>{STYLE}</style>\n'
        f"<h1>{title}</h1>\n{introduction(sweep)}<h2>Legend</h2>\n{legend(sweep, runs)}\n"
        f"<h2>Requests and faults</h2>\n{grid(sweep, found, key_of)}\n"
        f"<h2>Script</h2>\n<pre>{html.escape(text)}</pre>\n<h2>Without an added fault</h2>\n<pre>{html.escape(events)}</pre>\n</html>\n"
    )
