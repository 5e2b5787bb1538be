"""Times of SciPy's cKDTree and scikit-learn's BallTree, metric L1, over a script of `bench/run`.

    trees.py SCRIPT RUNS

writes a line NAME,MICROSECONDS,ROWS for each tree: processor time of a query, all queries of the
script being handed over in one call on one thread, least of RUNS; and the rows found in all.
The distances of cKDTree's ranges are neither computed nor sorted, as its call gives none.
"""

import sys
import time

import numpy
from scipy.spatial import cKDTree
from sklearn.neighbors import BallTree


def read(name):
    """The objects, and the queries with their word and number, which all have alike."""
    points, queries, head = [], [], None
    with open(name) as script:
        for line in script:
            word, number, *point = line.split(",")
            if word == "insert":
                points.append(point)
            else:
                queries.append(point)
                head = word, int(number)
    return numpy.array(points, dtype=float), numpy.array(queries, dtype=float), head


def calls(points, word, number):
    """Each tree's name with its call, which gives the rows found."""
    kd, ball = cKDTree(points), BallTree(points, metric="manhattan")

    def count(answers):
        return sum(len(answer) for answer in answers)

    if word == "range":
        yield "cKDTree", lambda q: count(kd.query_ball_point(q, number, p=1, return_sorted=False))
        sorted_rows = {"return_distance": True, "sort_results": True}
        yield "BallTree", lambda q: count(ball.query_radius(q, number, **sorted_rows)[0])
    else:
        yield "cKDTree", lambda q: count(kd.query(q, number, p=1)[0])
        yield "BallTree", lambda q: count(ball.query(q, number)[0])


def main():
    points, queries, (word, number) = read(sys.argv[1])
    for name, call in calls(points, word, number):
        least, rows = None, 0
        for _ in range(int(sys.argv[2])):
            start = time.process_time()
            rows = call(queries)
            spent = time.process_time() - start
            least = spent if least is None else min(least, spent)
        print(f"{name},{least / len(queries) * 1e6:.1f},{rows}", flush=True)


main()
