"""The columns and rows of a picture. If there are too many, several requests share a column, and the files of one or more tasks share a row."""
import bisect
import collections
import dataclasses
import itertools
import re

from pages import counted
from readers import OLD, SUCCESS

MOST_COLUMNS, MOST_CHANGES, LEAST_FOLD = 80, 300, 3


@dataclasses.dataclass
class Column:
    """The steps from `first` to `last`, of one event or of several whole events. It shows what readers see after the last step."""
    first: int
    last: int


@dataclasses.dataclass
class Row:
    """One file, or the files of one or more tasks."""
    label: str
    paths: list
    is_folded: bool = False


def joined(columns, kind_of, most):
    """Joins neighbours of one kind, at most `most` at a time. Columns of the kind None are not joined."""
    found = []
    for kind, them in itertools.groupby(columns, kind_of):
        them = [*them]
        size = 1 if kind is None or len(them) < LEAST_FOLD else most
        found += [Column(part[0].first, part[-1].last) for part in (them[at:at + size] for at in range(0, len(them), size))]
    return found


def kind_of(run, at, is_turn):
    """The kind of requests with which a request may share a column, or None if it has its own column.

    These are answered requests of its event after which readers see the same or, if `is_turn`, other files.
    """
    step, is_begun = run.steps[at], run.begin is not None and at >= run.begin
    is_marker = any(at == turn for turn, _ in run.sights[SUCCESS])
    is_same = step.request and step.request["outcome"] == "answered" and not is_marker and (at in run.turns) == is_turn
    return (step.event, is_begun) if is_same else None


def is_quiet(run, at):
    """Whether an event of one column needs no column of its own: no actor dies, nothing is refused, and readers see the same."""
    step = run.steps[at]
    event = run.events[step.event]
    if step.request:
        return not event.note and kind_of(run, at, False) is not None
    return not {"kill", "restart"} & {*event.text.split(" ")[:2]} and not event.end.startswith("refused")


def quiet_events(run, columns):
    """The kind of each column that is a whole quiet event: the event without the attempt's number. Other columns have None."""
    many = collections.Counter(run.steps[it.first].event for it in columns)
    for it in columns:
        event = run.steps[it.first].event
        is_whole = many[event] == 1 and is_quiet(run, it.first)
        is_begun = run.begin is not None and it.first >= run.begin
        yield it.first, (re.sub(r"\b\d+\.\d+\b", "T.A", run.events[event].text), is_begun) if is_whole else None


def columns_of(run):
    """The columns: one for each step, if these are not too many."""
    found = [Column(at, at) for at in range(len(run.steps))]
    if len(found) > MOST_COLUMNS:
        found = joined(found, lambda it: kind_of(run, it.first, False), len(found))
    if len(found) > MOST_COLUMNS:
        kinds = dict(quiet_events(run, found))
        found = joined(found, lambda it: kinds[it.first], len(found))
    turns = sum(it.first in run.turns for it in found)
    if turns > MOST_CHANGES:
        found = joined(found, lambda it: kind_of(run, it.first, True) if it.first == it.last else None, -(-turns // MOST_CHANGES))
    return found


def folded(tasks, most):
    """A row for each task. If there are more than `most` tasks, a row is for several neighbouring tasks of a job."""
    size = max(1, -(-len(tasks) // max(most, 1)))
    for job, them in itertools.groupby(tasks, lambda it: it and it.rpartition(" ")[0]):
        them = [*them]
        for part in (them[at:at + size] for at in range(0, len(them), size)):
            paths = [path for it in part for path in tasks[it]]
            names = "–".join(dict.fromkeys((it or "").rpartition(" ")[2] for it in (part[0], part[-1])))
            name = "old" if job is None else f"{job} task{'s' if len(part) > 1 else ''} {names}".strip()
            yield Row(f"{name}: {counted(len(paths), 'file')}", paths, True)


def rows_of(run, most):
    """The rows, `_SUCCESS` last: one for each path that readers ever see, if these are at most `most`."""
    last = Row(SUCCESS, [SUCCESS])
    if len(run.sights) - 1 <= most:
        return [*(Row(it, [it]) for it in sorted(run.sights.keys() - {SUCCESS})), last]
    return [*folded(run.tasks(), most), last]


def spans(run, columns, row):
    """What a row shows: the place from which on, the place before which it ends, and how many files of each owner it shows.

    Place 0 is the start; the columns follow.
    """
    starts, turns = [it.first for it in columns], {}
    for path in row.paths:
        for at, whose in run.sights[path]:
            turns.setdefault(0 if at < 0 else bisect.bisect_right(starts, at), {})[path] = whose
    now, found = {}, []
    for place in sorted(turns.keys() | {0}):
        now |= turns.get(place, {})
        shown = collections.Counter(whose for whose in now.values() if whose)
        if not found or found[-1][2] != shown:
            if found:
                found[-1][1] = place
            found.append([place, len(columns) + 1, shown])
    return found


def order_of(whose):
    """Sorts old files first, then attempts by name."""
    return whose != OLD, whose
