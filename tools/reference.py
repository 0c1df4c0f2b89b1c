#!/usr/bin/env python3
"""A second, naive reading of docs/FORMAT.md and docs/RULES.md, to compare the bench with. It shares nothing with the crates.

reference.py FILE..     prints what the bench should print of each plan file
"""
from math import lcm
import sys

BODY = {0: 0, 1: 5, 2: 1, 3: 11, 4: 2, 5: 4, 6: 5}
MOST = {'pagoda': 8, 'rows': 1024, 'tree': 2048}
SORT = {2: 'pagoda', 3: 'rows', 4: 'tree', 5: 'tree'}


class Fault(Exception):
    def __init__(self, *numbers):
        super().__init__(*numbers)
        self.numbers = numbers


def number(octets):
    return int.from_bytes(octets, 'big')


def records(data):
    """Yields (byte, kind, body) for record after record, and the fault where one is cut short or unknown."""
    at = 0
    while True:
        if at >= len(data):
            raise Fault(41, at)
        kind = data[at]
        if kind not in BODY:
            raise Fault(42, at)
        body = data[at + 1:at + 1 + BODY[kind]]
        if len(body) < BODY[kind]:
            raise Fault(41, at)
        yield at, kind, body
        at += 1 + BODY[kind]


def read(data):
    """The film's three numbers, the sort, the plan records and the closures."""
    if len(data) > 32768:
        raise Fault(46, 0)
    film, sort, parts, closures = None, None, [], []
    for at, kind, body in records(data):
        if film is None:
            ok = kind == 1
        elif kind == 1:
            ok = False
        elif kind in SORT:
            ok = not closures and sort in (None, SORT[kind]) and len(parts) < MOST[SORT[kind]]
        elif kind == 6:
            ok = bool(parts) and len(closures) < 64
        else:
            ok = bool(parts)
        if not ok:
            raise Fault(43, at)
        if kind == 1:
            film = number(body[0:2]), number(body[2:4]), body[4]
        elif kind in SORT:
            sort = SORT[kind]
            parts.append((kind, bytes(body)))
        elif kind == 6:
            closures.append((at, body[0], number(body[1:5])))
        else:
            if at + 1 < len(data):
                raise Fault(44, at + 1)
            return film, sort, parts, closures


def pagoda_period(delay, pages, counts):
    """Deals the pages one subchannel after the other; the film has as many as are dealt."""
    first, cycles = 1, []
    for count in counts:
        if not 1 <= count <= 32 or count > delay + first - 1:
            raise Fault(45, 0, 2)
        for _ in range(count):
            share = (delay + first - 1) // count
            cycles.append(count * share)
            first += share
        if first - 1 > 1024:
            raise Fault(45, 0, 3)
    if lcm(*cycles) > 65536:
        raise Fault(45, 0, 4)
    if first - 1 != pages:
        raise Fault(45, 0, 1)
    return lcm(*cycles)


def rows_period(rows):
    periods = [number(body[7:11]) for _, body in rows]
    if 0 in periods or lcm(*periods) > 65536:
        raise Fault(45, 0, 4)
    return lcm(*periods)


def tree_period(nodes, channels):
    """Each node's period from the last node to the first, since children come after their parents."""
    if channels > len(nodes):
        raise Fault(45, 0, 1)
    inner = [(number(body[0:2]), number(body[2:4])) if kind == 5 else None for kind, body in nodes]
    for x, node in enumerate(inner):
        if node and (node[1] == 0 or node[0] <= x or node[0] + node[1] > len(nodes)):
            raise Fault(45, 0, 7)
    periods = [1] * len(nodes)
    for x in reversed(range(len(nodes))):
        if inner[x]:
            a, d = inner[x]
            periods[x] = d * lcm(*periods[a:a + d])
    whole = lcm(*periods[:channels])
    if max(periods + [whole]) > 65536:
        raise Fault(45, 0, 4)
    return whole


def plan_period(film, sort, parts):
    delay, pages, channels = film
    if not (1 <= delay <= 1024 and 1 <= pages <= 1024 and 1 <= channels <= 8):
        raise Fault(45, 0, 1)
    if sort == 'pagoda':
        if channels != len(parts):
            raise Fault(45, 0, 1)
        return pagoda_period(delay, pages, [body[0] for _, body in parts])
    if sort == 'rows':
        return rows_period(parts)
    return tree_period(parts, channels)


def judge_closures(closures, channels, period):
    seen = set()
    for at, channel, slot in closures:
        if not 1 <= channel <= channels or slot >= period:
            raise Fault(45, at, 19)
        if (channel, slot) in seen:
            raise Fault(45, at, 20)
        seen.add((channel, slot))


def loaded(data):
    """The film, the sort, the plan records, the closures and the period of a file that loads."""
    film, sort, parts, closures = read(data)
    period = plan_period(film, sort, parts)
    judge_closures(closures, film[2], period)
    return film, sort, parts, closures, period


def report(data, told=lambda film, sort, parts, closures, period: []):
    """The lines on a file; of one that loads, what is told of it stands between the period and the wait."""
    try:
        film, sort, parts, closures, period = loaded(data)
    except Fault as fault:
        return ['FAULT ' + ' '.join(map(str, fault.numbers))]
    judged = told(film, sort, parts, closures, period)
    return ['FILM %d %d %d' % film, 'PERIOD %d' % period, *judged, 'WAIT %d' % film[0]]


if __name__ == '__main__':
    for name in sys.argv[1:]:
        with open(name, 'rb') as file:
            print('\n'.join(report(file.read())))
