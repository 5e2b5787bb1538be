"""A plain reader of settings, schedules and scripts, after the README's description of files.

It shares nothing with the program: the tools beside it hold the program's answers against it.
"""

import re
from dataclasses import dataclass, field

MOST_BYTES = 67_108_864
NUMBER = re.compile(rb"[+-]?[0-9]{1,20}")
LINE_ENDS = re.compile(rb"[\r\n]*")
FIELD_END = re.compile(rb"[,\r\n]")
METRICS = {b"l1", b"max", b"hamming", b"table"}
RADIUS, COUNT, ID = (0, 2**31 - 1), (1, 1_000_000), (0, 2**40 - 1)


class Fault(Exception):
    """The first bad record of a file: its number from 1, and the reason."""

    def __init__(self, record, reason):
        super().__init__(record, reason)
        self.record, self.reason = record, reason


@dataclass
class Settings:
    metric: str = ""
    dims: int = 0
    rows: list = field(default_factory=list)
    pivots: list = field(default_factory=list)
    levels: int = 0
    cell: int = 0
    updates: int = 0
    pages: int = 0

    def coordinates(self):
        """The bounds of a coordinate."""
        return (0, len(self.rows) - 1) if self.metric == "table" else (-1_000_000, 1_000_000)

    def distance(self, one, other):
        if self.metric == "table":
            return self.rows[one[0]][other[0]]
        apart = [abs(a - b) for a, b in zip(one, other)]
        if self.metric == "hamming":
            return sum(1 for far in apart if far)
        return max(apart) if self.metric == "max" else sum(apart)

    def metric_holds(self):
        """Whether the table, where there is one, is a metric."""
        if self.metric != "table":
            return True
        d, every = self.rows, range(len(self.rows))
        if any(len(row) != len(d) for row in d):
            return False
        pairs = [(i, j) for i in every for j in every]
        alike = all(d[i][j] == d[j][i] and (d[i][j] == 0) == (i == j) for i, j in pairs)
        return alike and all(d[i][j] <= d[i][k] + d[k][j] for i, j in pairs for k in every)


def records(data):
    """The records of a file, each a list of fields. Lines without anything are none."""
    if data.startswith(b"\xef\xbb\xbf"):
        data = data[3:]
    size = len(data)
    place = LINE_ENDS.match(data).end()
    while place < size:
        fields, going = [], True
        while going:
            text, place = cut(data, place)
            fields.append(text)
            going = place < size and data[place] == ord(",")
            place += 1
        yield fields
        place = LINE_ENDS.match(data, min(place, size)).end()


def cut(data, place):
    """One field from a place on, and the place of the comma or line end behind it."""
    text = b""
    if data[place : place + 1] == b'"':
        place += 1
        while True:
            end = data.find(b'"', place)
            if end < 0:
                return text + data[place:], len(data)
            text += data[place:end]
            place = end + 1
            if data[place : place + 1] != b'"':
                break
            text += b'"'
            place += 1
    found = FIELD_END.search(data, place)
    end = found.start() if found else len(data)
    return text + data[place:end], end


def number(at, text, bounds):
    if not NUMBER.fullmatch(text):
        raise Fault(at, "number")
    value = int(text)
    if not bounds[0] <= value <= bounds[1]:
        raise Fault(at, "range")
    return value


def numbers(at, texts, bounds):
    return tuple(number(at, text, bounds) for text in texts)


def sized(at, fields, *counts):
    if len(fields) not in counts:
        raise Fault(at, "fields")


def checked_size(data):
    if len(data) > MOST_BYTES:
        raise Fault(0, "large")


def read_settings(data):
    checked_size(data)
    found, stages = Settings(), ["metric"]
    at = 0
    for at, fields in enumerate(records(data), 1):
        word = fields[0].decode("latin-1")
        if stages == ["done"]:
            raise Fault(at, "extra")
        if word not in stages:
            raise Fault(at, "word")
        stages = take_setting(found, at, word, fields)
    if stages != ["done"]:
        raise Fault(at + 1, "end")
    return found


def take_setting(found, at, word, fields):
    """Takes one record in, and answers with the words that may follow it."""
    if word == "metric":
        if len(fields) > 1 and fields[1] not in METRICS:
            raise Fault(at, "word")
        sized(at, fields, 2)
        found.metric = fields[1].decode()
        return ["dims"]
    if word == "row":
        if len(found.rows) == 128:
            raise Fault(at, "limit")
        sized(at, fields, *range(2, 130))
        found.rows.append(numbers(at, fields[1:], (0, 128_000_000)))
        return ["row", "pivot", "levels"]
    if word == "pivot":
        if len(found.pivots) == 32:
            raise Fault(at, "limit")
        sized(at, fields, 1 + found.dims)
        found.pivots.append(numbers(at, fields[1:], found.coordinates()))
        return ["pivot", "levels"]
    count = len(found.pivots)
    bounds = {
        "dims": (1, 1 if found.metric == "table" else 64),
        "levels": (1 if count else 0, min(6, count)),
        "cell": (1, 10_000),
        "updates": (1, 200_000),
        "pages": (1, 200_000),
    }
    sized(at, fields, 2)
    setattr(found, word, number(at, fields[1], bounds[word]))
    if word == "dims":
        return ["row"] if found.metric == "table" else ["pivot", "levels"]
    order = ["levels", "cell", "updates", "pages", "done"]
    return [order[order.index(word) + 1]]


def read_schedule(data, sessions):
    checked_size(data)
    turns = 0
    for at, fields in enumerate(records(data), 1):
        splitter = fields[0] == b"splitter"
        if not splitter and not NUMBER.fullmatch(fields[0]):
            raise Fault(at, "word")
        if at > 1_000_000:
            raise Fault(at, "limit")
        sized(at, fields, 2)
        if not splitter:
            number(at, fields[0], (0, sessions - 1))
        if fields[1] != b"op":
            turns += number(at, fields[1], (1, 1_000_000))
        if turns > 100_000_000:
            raise Fault(at, "limit")


def read_script(data, settings):
    """The operations: of each its word, its number, and its vector, which a delete has not."""
    checked_size(data)
    bounds = {"insert": ID, "delete": ID, "range": RADIUS, "nearest": COUNT}
    found = []
    for at, fields in enumerate(records(data), 1):
        word = fields[0].decode("latin-1")
        if word not in bounds:
            raise Fault(at, "word")
        if at > 200_000:
            raise Fault(at, "limit")
        sized(at, fields, 2 if word == "delete" else 2 + settings.dims)
        value = number(at, fields[1], bounds[word])
        found.append((word, value, numbers(at, fields[2:], settings.coordinates())))
    return found
