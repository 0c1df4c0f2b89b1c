#!/usr/bin/env python3
"""A second, naive reading of docs/FORMAT.md and docs/RULES.md, to compare the second bench with: what reference.py reads, and
the judgement of the plan. It shares nothing with the crates.

judged_reference.py FILE..     prints what the second bench should print of each plan file
"""
import sys

import reference
from reference import number


def pagoda_lines(delay, counts, period):
    """Deals the pages in order, channel by channel and subchannel by subchannel: its first page and how many it has."""
    first, channels = 1, []
    for count in counts:
        subchannels = []
        for _ in range(count):
            share = (delay + first - 1) // count
            subchannels.append((first, share))
            first += share
        channels.append(subchannels)

    def page(subchannels, t):
        first, share = subchannels[t % len(subchannels)]
        return first + t // len(subchannels) % share
    return [[page(subchannels, t) for subchannels in channels] for t in range(period)]


def rows_lines(rows, channels, period):
    """In each slot the lowest page among the channel's rows that fit: those with slot mod every = start."""
    lines = [[None] * channels for _ in range(period)]
    for _, body in rows:
        page, channel, start, every = number(body[0:2]), body[2], number(body[3:7]), number(body[7:11])
        if 1 <= channel <= channels and start < every:
            for slot in range(start, period, every):
                other = lines[slot][channel - 1]
                lines[slot][channel - 1] = page if other is None else min(page, other)
    return [[page or 0 for page in line] for line in lines]


def tree_lines(parts, channels, period):
    # each node as its page alone, or as its first child and its degree
    nodes = [(number(body[0:2]), number(body[2:4])) if kind == 5 else (number(body),) for kind, body in parts]

    def page(x, turn):
        while len(nodes[x]) == 2:
            a, d = nodes[x]
            x, turn = a + turn % d, turn // d
        return nodes[x][0]
    return [[page(root, t) for root in range(channels)] for t in range(period)]


def plan_lines(film, sort, parts, period):
    """One period of the timetable: for each slot the numbers on the channels."""
    delay, _, channels = film
    if sort == 'pagoda':
        return pagoda_lines(delay, [body[0] for _, body in parts], period)
    if sort == 'rows':
        return rows_lines(parts, channels, period)
    return tree_lines(parts, channels, period)


def first_stray(lines, pages):
    """The first entry above the film's last page, by slot and then by channel."""
    for slot, line in enumerate(lines):
        for channel, page in enumerate(line, 1):
            if page > pages:
                return slot, channel, page
    return None


def first_starving(comings, window, period):
    """The first tune-in below the period in whose window no slot carries the page, or None. A coming serves the window's
    tune-ins up to it, the slots of the period before among them."""
    served = bytearray(period)
    for slot in comings:
        if window >= period:
            return None
        begin = slot - window + 1
        served[max(begin, 0):slot + 1] = b'\1' * (slot + 1 - max(begin, 0))
        if begin < 0:
            served[begin:] = b'\1' * -begin
    return served.index(0) if 0 in served else None


def findings(lines, delay, pages):
    """Each page that some tune-in starves of, with the first such tune-in; the pages in order."""
    comings = {page: [] for page in range(1, pages + 1)}
    for slot, line in enumerate(lines):
        for page in set(line) & comings.keys():
            comings[page].append(slot)
    first = [(page, first_starving(comings[page], delay + page - 1, len(lines))) for page in comings]
    return [(page, slot) for page, slot in first if slot is not None]


def fed(heard, delay, pages, tune_in):
    """The peak of a receiver that is fed from the tune-in to the film's end. It holds what it has heard and not shown; the
    page on show counts through its slot, and has to be held before it."""
    held, shown, peak = set(), set(), 0
    for turn in range(delay + pages):
        on_show = turn - delay + 1
        assert on_show < 1 or on_show in held
        held |= heard[(tune_in + turn) % len(heard)] - held - shown
        peak = max(peak, len(held))
        if on_show >= 1:
            held.remove(on_show)
            shown.add(on_show)
    assert len(shown) == pages and peak <= pages
    return peak


def survey(lines, delay, pages):
    """The greatest peak of the receivers tuned in at each slot of a period, and the first slot that reaches it."""
    heard = [{page for page in line if 1 <= page <= pages} for line in lines]
    peaks = [fed(heard, delay, pages, tune_in) for tune_in in range(len(lines))]
    return max(peaks), peaks.index(max(peaks))


def judgement(film, sort, parts, closures, period):
    delay, pages, _ = film
    lines = plan_lines(film, sort, parts, period)
    for _, channel, slot in closures:
        lines[slot][channel - 1] = 0
    stray, missing = first_stray(lines, pages), findings(lines, delay, pages)
    misses = ['MISS %d %d' % finding for finding in missing]
    if stray:
        return ['CHECK STRAY %d %d %d' % stray, *misses]
    if missing:
        return ['CHECK STARVED %d %d' % missing[0], *misses]
    return ['CHECK PASS', 'STOCK LONG' if period > 4096 else 'STOCK %d %d' % survey(lines, delay, pages)]


def report(data):
    return reference.report(data, judgement)


if __name__ == '__main__':
    for name in sys.argv[1:]:
        with open(name, 'rb') as file:
            print('\n'.join(report(file.read())))
