#!/usr/bin/env python3
"""Writes the plan files that are measured.

plans.py FOLDER     writes its .plan files into the folder, and prints their names
"""
import os
import sys

CHANNELS = 8


def film(delay, pages):
    return b'\1' + delay.to_bytes(2, 'big') + pages.to_bytes(2, 'big') + bytes([CHANNELS])


def row(page, channel, start, every):
    return b'\3' + page.to_bytes(2, 'big') + bytes([channel]) + start.to_bytes(4, 'big') + every.to_bytes(4, 'big')


def leaf(page):
    return b'\4' + page.to_bytes(2, 'big')


def inner(first, degree):
    return b'\5' + first.to_bytes(2, 'big') + degree.to_bytes(2, 'big')


def place(page):
    """Deals pages round the channels: the page's channel, and its turn there."""
    return (page - 1) % CHANNELS + 1, (page - 1) // CHANNELS


def rows(delay, pages, listed):
    """A plan by rows, no two of which meet."""
    taken = set()
    longest = max(every for _, _, _, every in listed)
    for _, channel, start, every in listed:
        entries = {(channel, slot) for slot in range(start, longest, every)}
        assert start < every and longest % every == 0 and not entries & taken
        taken |= entries
    assert len(listed) == 1024
    return film(delay, pages) + b''.join(row(*each) for each in listed) + b'\0'


def long_rows():
    """1,023 pages with 128 rows or so to a channel; the first two channels are never silent."""
    for page in range(1, 1024):
        channel, turn = place(page)
        every = (128, 128, 256, 256, 512, 512, 1024, 1024)[channel - 1]
        yield page, channel, turn * 37 % 128 * (every // 128), every


def long_passes():
    """Period 65,536 and passes: one page comes once more in the whole period."""
    return rows(1024, 1023, list(long_rows()) + [(1, 8, 65535, 65536)])


def long_starves():
    """Period 65,536 and starves: the last page comes once in the whole period."""
    return rows(1024, 1024, list(long_rows()) + [(1024, 8, 65535, 65536)])


def survey_rows():
    """Period 4,096 and passes: pages come in bursts, some after the film has started, so that the stock varies."""
    listed = []
    for page in range(1, 1024):
        channel, turn = place(page)
        if page < 25:
            listed.append((page, channel, 8 * turn + 4, 512))
        else:
            listed.append((page, channel, turn * 37 % 128 * 8, 1024))
    return rows(1000, 1023, listed + [(1000, 8, 4095, 4096)])


def survey_tree():
    """Period 4,096 and passes, with the most pages and the longest delay: the first channel carries all pages in turn, the
    others share its leaves, by fours of 256 and by four times the whole."""
    leaves = CHANNELS + 4 + 4
    wholes, quarters = CHANNELS, CHANNELS + 4
    roots = [inner(leaves, 1024)] + [inner(wholes, 4), inner(quarters, 4), inner(leaves + 512, 512)] * 2 + [inner(leaves, 64)]
    middle = [inner(leaves, 1024)] * 4 + [inner(leaves + 256 * part, 256) for part in range(4)]
    return film(1024, 1024) + b''.join(roots + middle + [leaf(page) for page in range(1, 1025)]) + b'\0'


def main():
    for plan in (long_passes, long_starves, survey_rows, survey_tree):
        path = os.path.join(sys.argv[1], plan.__name__.replace('_', '-') + '.plan')
        with open(path, 'wb') as file:
            file.write(plan())
        print(path)


main()
