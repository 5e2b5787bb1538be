"""The workloads that the tools run the program on, as texts of their files."""

import random
from dataclasses import dataclass


@dataclass
class Workload:
    name: str
    settings: str
    schedule: str
    scripts: list


def lines(*records):
    return "".join(f"{record}\n" for record in records)


def settings(dims, pivots, levels, cell, updates=64, pages=40):
    points = [f"pivot,{pivot}" for pivot in pivots]
    limits = [f"levels,{levels}", f"cell,{cell}", f"updates,{updates}", f"pages,{pages}"]
    return lines("metric,l1", f"dims,{dims}", *points, *limits)


def inserts(first, last, place=None):
    """Objects on a line, each at the place of its number or all at one."""
    return [f"insert,{i},{i if place is None else place}" for i in range(first, last + 1)]


def small():
    """One per thing that memory may be wanted for: pages, splits, copies taken back, sweeps."""
    line = ["0", "10"]
    yield Workload(
        "no pivots",
        settings(2, [], 0, 4, 8, 4),
        "",
        [
            lines("nearest,1,0,0", "insert,7,0,0", "insert,9,3,4", "range,6,0,0", "delete,7")
            + lines("delete,7", "insert,7,5,5", "nearest,5,0,0")
        ],
    )
    yield Workload(
        "a split while a query reads",
        settings(1, line, 2, 2),
        lines(*["0,op"] * 3, "0,1", *["splitter,op"] * 2, "1,op", "0,op", "1,op"),
        [lines(*inserts(1, 3), "range,5,2"), lines("delete,2", "range,5,2")],
    )
    yield Workload(
        "a page halved while a query reads",
        settings(1, [], 0, 4, 64, 16),
        lines(*["0,op"] * 33, "0,3", *["1,op"] * 16),
        [lines(*inserts(1, 33), "range,100,0"), lines(*inserts(34, 49))],
    )
    yield Workload(
        "an insert that splits",
        settings(1, ["0", "10", "20", "30"], 4, 1),
        lines(*["0,op"] * 5),
        [lines(*inserts(1, 4), "insert,5,0", "nearest,3,2", "delete,3", "range,9,1")],
    )
    yield Workload(
        "the splitter's copies taken back",
        settings(1, line, 2, 20, 64, 1),
        "",
        [lines(*inserts(1, 21, place=1), "range,0,1")],
    )
    yield Workload(
        "an insert's copies taken back",
        settings(1, line, 2, 7, 64, 1),
        lines(*["0,op"] * 29),
        [lines(*inserts(1, 29, place=1))],
    )


def mixed(name, scripts, operations, seed=1):
    """Inserts, deletes and queries of the plane in several scripts, and a schedule of turns."""
    draw = random.Random(seed).randrange
    pivots = [f"{draw(100)},{draw(100)}" for _ in range(5)]
    written = []
    for script in range(scripts):
        records = []
        for turn in range(operations):
            key, place = turn * scripts + script, f"{draw(100)},{draw(100)}"
            records.append(f"insert,{key},{place}")
            if turn % 10 == 9:
                records.append(f"delete,{key - scripts * draw(9)}")
                records.append(f"range,20,{place}")
                records.append(f"nearest,5,{place}")
        written.append(lines(*records))
    actors = [*map(str, range(scripts)), "splitter"]
    takes = [f"{actors[draw(len(actors))]},{1 + draw(20)}" for _ in range(operations)]
    total = scripts * operations * 2
    return Workload(name, settings(2, pivots, 3, 4, total, total), lines(*takes), written)


def large():
    yield mixed("two scripts of 150 inserts with queries", 2, 150)
    first, second = inserts(0, 999), inserts(1000, 1999)
    limits = settings(1, ["0", "1000"], 2, 100, 2000, 2000)
    yield Workload("two scripts of 1,000 inserts", limits, "", [lines(*first), lines(*second)])
