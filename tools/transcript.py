"""Checks a transcript of `replay` or `run` from its own history, by plain scans.

The history is replayed: which objects live after each update, and which leaves there are after
each split. Each reply must tell what that front of the history gives which it names.
"""

from collections import Counter

REPLIES = {
    "insert": {"stored", "present", "full", "nopages", "memory"},
    "delete": {"removed", "absent", "full", "memory"},
    "range": {"range", "memory"},
    "nearest": {"nearest", "memory"},
}
FIELDS = {"stored": 1, "removed": 1, "present": 2, "absent": 2, "full": 1, "nopages": 1}
FIELDS |= {"memory": 0, "range": 5, "nearest": 4}


class Wrong(Exception):
    """What a transcript says that can't be."""


def need(holds, told):
    if not holds:
        raise Wrong(told)


class Lines:
    """The lines of a text, taken one after another."""

    def __init__(self, text):
        need(text.endswith("\n"), "the last line has no end")
        self.lines = text[:-1].split("\n")
        self.place = 0

    def take(self):
        need(self.place < len(self.lines), "the text ends early")
        self.place += 1
        return self.lines[self.place - 1]

    def numbers(self, count, word=None):
        """The numbers of the next line, behind its word where it has one."""
        line = self.take()
        fields = line.split(",")
        if word is not None:
            need(fields.pop(0) == word, f"{word} was to come: {line}")
        values = [number(text) for text in fields]
        need(len(values) == count, f"{count} numbers were to come: {line}")
        return values


def number(text):
    need(text.lstrip("-").isdigit() and text == str(int(text)), f"no number: {text}")
    return int(text)


def reply_of(lines, op):
    """One reply: its word, its numbers and its rows."""
    word, *rest = lines.take().split(",")
    need(word in REPLIES[op[0]], f"a reply {word} to an {op[0]}")
    values = [number(text) for text in rest]
    need(len(values) == FIELDS[word], f"{word} with {len(values)} numbers")
    count = values[2] if word in ("range", "nearest") else 0
    rows = [tuple(lines.numbers(2)) for _ in range(count)]
    need(len(rows) == count, f"{count} rows")
    return word, values, rows


def prefix_of(text):
    return () if text == "-" else tuple(number(place) for place in text.split("."))


def leaf_of(line):
    prefix, comma, count = line.partition(",")
    need(comma, f"a leaf was to come: {line}")
    return prefix_of(prefix), number(count)


class History:
    """The events, with the live objects and the leaves after each front of them."""

    def __init__(self, settings, scripts, lines):
        self.settings = settings
        updates, splits = lines.numbers(2, "history")
        self.updates, self.positions = [], {(0, 0): 0}
        count = len(settings.pivots)
        self.leaves = {(place,) for place in range(count)} if count else {()}
        self.leaf_counts = [len(self.leaves)]
        split, latest = 0, Counter()
        for event in range(updates + splits):
            word, *rest = lines.take().split(",")
            if word == "split":
                need(len(rest) == 1, "a split without its prefix")
                self.split(prefix_of(rest[0]))
                split += 1
            else:
                self.enter(scripts, word, [number(text) for text in rest], latest)
            self.positions[len(self.updates), split] = event + 1
        need((len(self.updates), split) == (updates, splits), "other events than are counted")
        need(updates <= settings.updates, "more updates than are allowed")

    def split(self, prefix):
        need(prefix in self.leaves, f"{prefix} is no leaf that may be split")
        need(len(prefix) < self.settings.levels, f"{prefix} is too long to be split")
        self.leaves.remove(prefix)
        rest = set(range(len(self.settings.pivots))) - set(prefix)
        self.leaves |= {prefix + (place,) for place in rest}
        self.leaf_counts.append(len(self.leaves))

    def enter(self, scripts, word, values, latest):
        need(word in ("insert", "delete") and len(values) > 2, f"an event {word}")
        session, op, *said = values
        need(0 <= session < len(scripts) and 0 < op <= len(scripts[session]), "no such operation")
        need(op > latest[session], "a session's updates are out of order")
        latest[session] = op
        asked, key, vector = scripts[session][op - 1]
        need((asked, key, *vector) == (word, *said), "an update that was not asked for")
        self.updates.append((word, session, op, key, vector))

    def live_after_each(self):
        """The live objects after no update, one, two and so on: one map, which is changed."""
        live = {}
        yield live
        for word, _, _, key, vector in self.updates:
            need((key in live) == (word == "delete"), f"{word} of {key} can't be accepted")
            if word == "insert":
                live[key] = vector
            else:
                del live[key]
            yield live

    def may_lie_within(self, radius, far, vector):
        pairs = zip(far, self.settings.pivots)
        return all(abs(d - self.settings.distance(pivot, vector)) <= radius for d, pivot in pairs)

    def leaf(self, vector):
        settings = self.settings
        far = [settings.distance(pivot, vector) for pivot in settings.pivots]
        order = sorted(range(len(far)), key=lambda place: (far[place], place))
        lengths = range(settings.levels + 1)
        return next(tuple(order[:n]) for n in lengths if tuple(order[:n]) in self.leaves)


def check_query(history, op, reply, live):
    """The rows are a scan's; a range computes the distances that the pivots don't exclude."""
    settings, (word, asked, query), (_, values, rows) = history.settings, op, reply
    scan = sorted((settings.distance(vector, query), key) for key, vector in live.items())
    right = [row for row in scan if row[0] <= asked] if word == "range" else scan[:asked]
    need(rows == right, f"{word},{asked}: other rows than a scan of update {values[0]}")
    need(0 <= values[3] <= history.leaf_counts[values[1]], "more leaves opened than there are")
    if word == "range":
        far = [settings.distance(pivot, query) for pivot in settings.pivots]
        left = [v for v in live.values() if history.may_lie_within(asked, far, v)]
        need(values[4] == len(far) + len(left), "another number of distances")


def check_replies(history, scripts, sessions):
    """Each session's replies in their order; then each at the front of the history it names."""
    told, asked = set(), {}
    for session, (ops, replies) in enumerate(zip(scripts, sessions)):
        seen = 0, 0
        for place, (op, reply) in enumerate(zip(ops, replies), 1):
            word, values, _ = reply
            if word in ("stored", "removed"):
                need(0 < values[0] <= len(history.updates), f"{word},{values[0]}: no such update")
                update = history.updates[values[0] - 1]
                need(update[1:3] == (session, place), f"{word},{values[0]} is another's update")
                need(values[0] > seen[0], "an update that its session had seen")
                told.add(values[0])
                seen = values[0], seen[1]
            elif word in ("present", "absent", "range", "nearest"):
                position = tuple(values[:2])
                need(position in history.positions, f"{position} is no position")
                need(position[0] >= seen[0] and position[1] >= seen[1], "an answer of the past")
                seen = position
                asked.setdefault(values[0], []).append((op, reply))
            elif word in ("full", "nopages"):
                limit = {"full": "updates", "nopages": "pages"}[word]
                need(values[0] == getattr(history.settings, limit), f"another limit of {word}")
    need(len(told) == len(history.updates), "an update that no reply tells")
    live = {}
    for update, live in enumerate(history.live_after_each()):
        for op, reply in asked.get(update, []):
            if reply[0] in ("present", "absent"):
                need((op[1] in live) == (reply[0] == "present"), f"{op[1]} is not {reply[0]}")
            else:
                check_query(history, op, reply, live)
    return live


def check(settings, scripts, text, status):
    """Raises `Wrong` where the text can't be the transcript of these scripts with this status."""
    lines = Lines(text)
    sessions = []
    for session, ops in enumerate(scripts):
        need(lines.numbers(1, "session") == [session], "another session")
        sessions.append([reply_of(lines, op) for op in ops])
    history = History(settings, scripts, lines)
    live = check_replies(history, scripts, sessions)
    counts = Counter(history.leaf(vector) for vector in live.values())
    [cells] = lines.numbers(1, "cells")
    leaves = [leaf_of(lines.take()) for _ in range(cells)]
    need(leaves == [(leaf, counts[leaf]) for leaf in sorted(history.leaves)], "other cells")
    [entries] = lines.numbers(1, "entries")
    allotted, limit = lines.numbers(2, "pages")
    need(lines.place == len(lines.lines), "lines behind the last one")
    need(1 <= allotted <= limit == settings.pages, "a number of pages that can't be")
    words = Counter(reply[0] for replies in sessions for reply in replies)
    need(allotted == limit or not words["nopages"], "nopages, and not all are taken")
    crowded = [count for leaf, count in leaves if len(leaf) < settings.levels]
    need(all(count <= 4 * settings.cell for count in crowded), "a cell that is far too large")
    if status == 0:
        need(not words["memory"], "status 0 with a reply memory")
        need(entries == len(live), "status 0 with entries of objects that are gone")
        settled = allotted == limit or all(count <= settings.cell for count in crowded)
        need(settled, "status 0 with a leaf that is to be split")
    else:
        need(entries >= len(live), "fewer entries than live objects")
