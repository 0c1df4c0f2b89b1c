#!/usr/bin/env python3
"""Writes the cases of crates/judged_vectors (stdin) and what is expected of each (stdout), the latter by judged_reference.py:
the cases of vectors.py, and more for the judgement of plans.

judged_vectors.py          writes crates/judged_vectors/stdin and crates/judged_vectors/stdout anew
judged_vectors.py --check  says whether they are as it would write them
"""
import random

from judged_reference import report
from vectors import END, cases, closure, dealt, film, inner, main, planned, row


def leaf(page):
    return '04%04x' % page


def closures(*entries):
    return ''.join(closure(channel, slot) for channel, slot in entries)


def pagoda(delay, counts, closed=()):
    return f'{film(delay, dealt(delay, counts), len(counts))} {"".join("02%02x" % count for count in counts)} {closures(*closed)} {END}'


def rows(delay, pages, channels, listed, closed=()):
    return f'{film(delay, pages, channels)} {"".join(row(*each) for each in listed)} {closures(*closed)} {END}'


def tree(delay, pages, channels, nodes, closed=()):
    """A node is a page, or a pair of its first child and its degree."""
    text = ''.join(inner(*node) if isinstance(node, tuple) else leaf(node) for node in nodes)
    return f'{film(delay, pages, channels)} {text} {closures(*closed)} {END}'


def grid(delay, channels, period, lines, pages=None, closed=()):
    """Rows that give each slot of a period its line of numbers; silence has no row."""
    listed = [(page, k, slot, period) for slot, line in enumerate(lines) for k, page in enumerate(line, 1) if page]
    return rows(delay, pages or max(map(max, lines)), channels, listed or [(0, 1, 0, period)], closed)


def split(delay, channels, pages):
    """Rows that starve nobody: free sequences cut so that each page comes at least once a window."""
    free, listed = [(k, 0, 1) for k in range(1, channels + 1)], []
    for page in range(1, pages + 1):
        window = delay + page - 1
        if not free:
            break
        k, start, every = best = min(free, key=lambda each: (window % each[2], -each[2], each[0], each[1]))
        free.remove(best)
        times = window // every
        listed.append((page, k, start, times * every))
        free += [(k, start + turn * every, times * every) for turn in range(1, times)]
    return listed


def checked():
    # pagoda plans pass with nothing closed
    for delay, counts in [(1, [1]), (2, [1]), (2, [2]), (3, [2]), (5, [4]), (6, [3]), (6, [2]), (7, [7]), (8, [4]), (10, [5]), (16, [4]), (1, [1, 1]), (1, [1, 1, 1]), (2, [1, 2]), (3, [3, 1]), (4, [2, 1]), (5, [1, 3]), (2, [1, 2, 1]), (24, [3]), (64, [1, 1])]:
        yield f'pass-pagoda-{delay}-{"-".join(map(str, counts))}', pagoda(delay, counts)
    yield 'pass-pagoda-1024-1', pagoda(1024, [1])
    yield 'pass-pagoda-most-channels', pagoda(1, [1] * 8)
    # small pagoda plans with each slot closed in turn, with neighbours closed, and with all of it closed
    for slot in range(12):
        yield f'pagoda-4-2-closed-{slot}', pagoda(4, [2], [(1, slot)])
    for slot in (1, 4, 8, 11):
        yield f'pagoda-4-2-closed-{slot}-and-next', pagoda(4, [2], [(1, slot), (1, (slot + 1) % 12)])
    yield 'pagoda-4-2-all-closed', pagoda(4, [2], [(1, slot) for slot in range(12)])
    yield 'pagoda-4-2-pages-1-and-2-closed', pagoda(4, [2], [(1, slot) for slot in range(0, 12, 2)])
    yield 'pagoda-4-2-backwards', pagoda(4, [2], [(1, slot) for slot in (11, 7, 3)])
    for channel, slot in [(1, 0), (1, 1), (2, 0), (2, 1), (2, 2), (2, 3)]:
        yield f'pagoda-1-1-2-closed-{channel}-{slot}', pagoda(2, [1, 2], [(channel, slot)])
    for slot in (0, 90, 179):
        yield f'pagoda-9-3-closed-{slot}', pagoda(9, [3], [(1, slot)])
        yield f'pagoda-4-2-3-closed-both-{slot}', pagoda(4, [2, 3], [(1, slot), (2, slot)])
    yield 'pagoda-1024-1-closed-1023', pagoda(1024, [1], [(1, 1023)])
    yield 'pagoda-1024-1-closed-64', pagoda(1024, [1], [(1, slot) for slot in range(0, 1024, 16)])
    # one page on one row: its period against its window, and where in the period it comes
    for every in (2, 5):
        for start in sorted({0, 1, every - 1}):
            for delay in (every - 1, every):
                yield f'one-{start}-of-{every}-delay-{delay}', rows(delay, 1, 1, [(1, 1, start, every)])
    yield 'one-start-at-period', rows(3, 1, 1, [(1, 1, 3, 3)])
    yield 'one-start-far', rows(3, 1, 1, [(1, 1, 4294967295, 3)])
    # gaps in and across the period's end
    for name, slots in [('early', [3, 4, 5, 6, 7]), ('late', [0, 1, 2, 3, 4]), ('middle', [0, 1, 6, 7]), ('both-ends', [2, 3, 4, 5]), ('equal', [1, 5]), ('two-gaps', [0, 3, 7])]:
        for delay in (3, 4):
            yield f'gap-{name}-delay-{delay}', grid(delay, 1, 8, [[1] if slot in slots else [0] for slot in range(8)])
    # several pages missing, and pages that are never sent
    yield 'silence', rows(1, 1, 1, [(0, 1, 0, 2)])
    yield 'silence-8-channels', rows(5, 7, 8, [(0, 1, 0, 2)])
    yield 'never-3-of-4', rows(4, 4, 1, [(1, 1, 0, 4), (2, 1, 1, 4), (4, 1, 3, 4)])
    yield 'never-last', rows(4, 5, 1, [(page, 1, page - 1, 4) for page in range(1, 5)])
    yield 'never-first', rows(4, 5, 1, [(page, 1, page - 1, 5) for page in range(2, 6)])
    yield 'never-any-of-64', rows(1, 64, 2, [(1, 3, 0, 2), (2, 0, 1, 2)])
    yield 'misses-by-slot-against-page', rows(1, 3, 1, [(1, 1, 0, 3), (2, 1, 1, 3), (3, 1, 2, 3)])
    yield 'misses-all-late', rows(1, 6, 1, [(page, 1, 6 - page, 6) for page in range(1, 7)])
    yield 'misses-odd-pages', rows(1, 8, 8, [(page, page, page - 1, page + page % 2) for page in range(1, 9)])
    yield 'misses-1023', rows(1, 1024, 1, [(1, 1, 0, 1)])
    yield 'delay-most-one-page', rows(1024, 1, 1, [(1, 1, 1023, 1024)])
    yield 'delay-most-one-page-late', rows(1023, 1, 1, [(1, 1, 1023, 1024)])
    yield 'delay-most-closed-once', rows(1024, 1, 1, [(1, 1, 1023, 1024)], [(1, 1023)])
    # closed entries: one of several comings, on one of several channels
    for closed in ([(1, 0)], [(1, 0), (2, 0)], [(1, 1)], [(1, 0), (2, 1)]):
        name = '-'.join(f'{k}-{slot}' for k, slot in closed) or 'none'
        yield f'two-channels-one-page-closed-{name}', rows(1, 1, 2, [(1, 1, 0, 1), (1, 2, 0, 2)], closed)
        yield f'two-channels-two-pages-closed-{name}', rows(2, 2, 2, [(1, 1, 0, 2), (2, 1, 1, 2), (2, 2, 0, 2), (1, 2, 1, 2)], closed)
    yield 'closed-silence', rows(2, 1, 1, [(1, 1, 0, 2)], [(1, 1)])
    yield 'closed-64', rows(64, 2, 2, [(1, 1, 0, 1), (2, 2, 0, 64)], [(1, slot) for slot in range(64)])
    yield 'closed-63', rows(64, 2, 2, [(1, 1, 0, 1), (2, 2, 0, 64)], [(1, slot) for slot in range(63)])
    # stray numbers: which comes first, what silences them, and what is missing beside them
    yield 'stray-first', rows(1, 1, 1, [(2, 1, 0, 1)])
    yield 'stray-second-slot', grid(2, 1, 2, [[1], [3]], 2)
    yield 'stray-last-slot', grid(9, 1, 9, [[1]] * 8 + [[2]], 1)
    yield 'stray-most', rows(1, 1024, 1, [(65535, 1, 6, 7)])
    yield 'stray-by-one', rows(4, 1024, 1, [(1025, 1, 2, 4)])
    yield 'stray-not-last-page', rows(4, 1024, 1, [(1024, 1, 2, 4)])
    yield 'stray-and-none-missing', rows(2, 1, 2, [(1, 1, 0, 1), (9, 2, 3, 4)])
    yield 'stray-channel-2-before-channel-1-later', grid(1, 2, 3, [[1, 1], [1, 5], [6, 1]], 1)
    yield 'stray-channel-2-after-channel-1-later', grid(1, 2, 3, [[1, 1], [5, 1], [1, 6]], 1)
    yield 'stray-both-channels', grid(1, 2, 2, [[1, 1], [6, 5]], 1)
    yield 'stray-channel-8', rows(1, 1, 8, [(1, k, 0, 1) for k in range(1, 8)] + [(2, 8, 0, 1)])
    yield 'stray-lower-later', grid(1, 1, 3, [[1], [7], [3]], 2)
    yield 'stray-beside-misses', rows(1, 4, 2, [(1, 1, 0, 2), (5, 1, 1, 2), (3, 2, 0, 4)])
    yield 'stray-after-starving', grid(1, 1, 4, [[0], [0], [1], [2]], 1)
    yield 'stray-closed', grid(2, 1, 2, [[1], [3]], 1, [(1, 1)])
    yield 'stray-closed-starves', grid(1, 1, 2, [[1], [3]], 1, [(1, 1)])
    yield 'stray-first-closed', grid(2, 1, 4, [[1], [3], [1], [4]], 1, [(1, 1)])
    yield 'stray-second-closed', grid(2, 1, 4, [[1], [3], [1], [4]], 1, [(1, 3)])
    yield 'stray-other-channel-closed', grid(2, 2, 2, [[1, 1], [3, 1]], 1, [(2, 1)])
    yield 'stray-under-lower', rows(1, 1, 1, [(9, 1, 0, 2), (1, 1, 0, 1)])
    yield 'stray-under-silence', rows(2, 1, 1, [(9, 1, 1, 2), (0, 1, 1, 2), (1, 1, 0, 2)])
    yield 'stray-on-channel-0', rows(1, 1, 1, [(9, 0, 0, 1), (1, 1, 0, 1)])
    yield 'stray-above-channels', rows(1, 1, 1, [(9, 2, 0, 1), (1, 1, 0, 1)])
    yield 'stray-never-fits', rows(1, 1, 1, [(9, 1, 3, 3), (1, 1, 0, 1)])
    yield 'stray-late-of-65536', rows(1, 1, 2, [(1, 1, 0, 1), (2, 2, 65535, 65536)])
    yield 'stray-late-of-65536-closed', rows(1, 1, 2, [(1, 1, 0, 1), (2, 2, 65535, 65536)], [(2, 65535)])
    yield 'stray-tree', tree(2, 2, 1, [(1, 3), 1, 2, 3])
    yield 'stray-tree-second-root', tree(2, 2, 2, [(2, 2), (4, 2), 1, 2, 2, 7])
    yield 'stray-tree-unreached', tree(1, 1, 1, [1, 7])
    yield 'stray-tree-closed', tree(3, 2, 1, [(1, 3), 1, 2, 3], [(1, 2)])
    # silence by a row, and rows that meet
    yield 'silent-row', rows(2, 1, 1, [(1, 1, 0, 1), (0, 1, 1, 2)])
    yield 'silent-row-starves', rows(1, 1, 1, [(1, 1, 0, 1), (0, 1, 1, 2)])
    yield 'silent-row-first-in-file', rows(1, 1, 1, [(0, 1, 2, 3), (1, 1, 0, 1)])
    yield 'silent-row-lengthens', rows(1, 1, 1, [(1, 1, 0, 1), (0, 1, 5, 5)])
    yield 'silent-row-other-channel', rows(1, 1, 2, [(1, 1, 0, 1), (0, 2, 0, 6)])
    yield 'meeting-rows', rows(4, 3, 1, [(3, 1, 0, 2), (2, 1, 0, 4), (1, 1, 1, 2)])
    yield 'meeting-rows-hide', rows(4, 3, 1, [(3, 1, 0, 2), (2, 1, 0, 2), (1, 1, 1, 2)])
    yield 'same-row-twice', rows(2, 2, 1, [(1, 1, 0, 2), (2, 1, 1, 2), (1, 1, 0, 2)])
    # trees
    for delay in (1, 2, 3):
        yield f'tree-three-pages-delay-{delay}', tree(delay, 3, 1, [(1, 2), 1, (3, 2), 2, 3])
    yield 'tree-one-leaf', tree(1, 1, 1, [1])
    yield 'tree-silent-leaf', tree(2, 1, 1, [(1, 2), 0, 1])
    yield 'tree-two-channels', tree(3, 5, 2, [(2, 2), (4, 3), 1, 2, 3, 4, 5])
    yield 'tree-shared-children', tree(3, 3, 2, [(2, 2), (2, 3), 1, 2, 3])
    yield 'tree-deep', tree(2, 9, 1, [(1, 2), 1, (3, 2), 2, (5, 2), 3, (7, 2), 4, (9, 2), 5, (11, 2), 6, (13, 2), 7, (15, 2), 8, 9])
    yield 'tree-deep-enough', tree(250, 9, 1, [(1, 2), 1, (3, 2), 2, (5, 2), 3, (7, 2), 4, (9, 2), 5, (11, 2), 6, (13, 2), 7, (15, 2), 8, 9])
    yield 'tree-deep-closed', tree(250, 9, 1, [(1, 2), 1, (3, 2), 2, (5, 2), 3, (7, 2), 4, (9, 2), 5, (11, 2), 6, (13, 2), 7, (15, 2), 8, 9], [(1, 255)])
    yield 'tree-chain-passes', tree(1, 1, 8, [(x + 1, 1) for x in range(2047)] + [1])
    yield 'tree-turns-65536', tree(3, 2, 2, [(2, 2)] * 2 + [(x + 1, 2) for x in range(2, 17)] + [1, 2])
    # long periods: the longest surveyed, and those that are too long for it
    yield 'long-4096', rows(4, 3, 2, [(1, 1, 0, 4), (2, 1, 1, 4), (3, 1, 2, 4), (3, 2, 4095, 4096)])
    yield 'long-4096-closed', rows(4, 3, 2, [(1, 1, 0, 4), (2, 1, 1, 4), (3, 1, 2, 4), (3, 2, 4095, 4096)], [(1, 4092)])
    seven = [(1, 1, 0, 1), (2, 2, 0, 2), (3, 2, 1, 2), (4, 3, 0, 4), (5, 3, 1, 4), (6, 3, 2, 4), (7, 4, 0, 4)]
    yield 'stock-seven-pages', rows(1, 7, 5, seven)
    yield 'long-4096-peak-4092', rows(1, 7, 5, seven + [(6, 5, 4093, 4096)])
    yield 'long-4096-peak-4088', rows(1, 7, 5, seven + [(6, 5, 4093, 4096), (6, 5, 4089, 4096)])
    later = [(page, k, (start + 3) % every, every) for page, k, start, every in seven + [(6, 5, 4093, 4096)]]
    yield 'long-4096-peak-4095', rows(1, 7, 5, later)
    yield 'long-4096-peak-closed', rows(1, 7, 5, seven + [(6, 5, 4093, 4096)], [(5, 4093)])
    yield 'long-8192-no-peak', rows(1, 7, 5, seven + [(6, 5, 4093, 8192)])
    yield 'long-4096-tree', tree(8, 3, 1, [(x + 1, 2) for x in range(10)] + [(11, 4), 1, 2, 3, 1])
    for period in (4095, 4097, 8192, 65535, 65536):
        yield f'long-{period}', rows(2, 2, 2, [(1, 1, 0, 1), (2, 2, 0, 1), (0, 2, period - 1, period)])
        yield f'long-{period}-starves', rows(1, 2, 2, [(1, 1, 0, 1), (2, 2, 0, 1), (0, 1, period - 1, period)])
        yield f'long-{period}-closed', rows(1, 2, 2, [(1, 1, 0, 1), (2, 2, 0, period)], [(1, period - 1)])
    yield 'long-65536-seldom', rows(1024, 2, 1, [(1, 1, 700, 1024), (2, 1, 65535, 65536)])
    yield 'long-65536-across', rows(1024, 1, 1, [(1, 1, 0, 512), (0, 1, 0, 65536)])
    yield 'long-65536-across-starves', rows(1023, 1, 1, [(1, 1, 0, 512), (0, 1, 0, 65536)])
    yield 'long-many-primes', rows(30, 6, 6, [(page, page, 0, every) for page, every in enumerate((2, 3, 5, 7, 11, 13), 1)])
    # what a receiver holds: repeats, pages shown before they come again, peaks that are met late or twice
    yield 'stock-one-page', rows(1, 1, 1, [(1, 1, 0, 1)])
    yield 'stock-one-page-8-channels', rows(1, 1, 8, [(1, k, 0, 1) for k in range(1, 9)])
    yield 'stock-repeat-in-slot', grid(2, 2, 2, [[1, 1], [2, 2]])
    yield 'stock-all-at-once', rows(1, 8, 8, [(page, page, 0, 1) for page in range(1, 9)])
    yield 'stock-just-in-time', grid(1, 2, 1, [[1, 2]])
    yield 'stock-one-less-at-each', grid(4, 1, 4, [[1], [2], [3], [4]])
    yield 'stock-reverse', grid(4, 1, 4, [[4], [3], [2], [1]])
    yield 'stock-late-pages-first', grid(3, 3, 3, [[1, 4, 0], [2, 5, 0], [3, 0, 6]])
    yield 'stock-late-pages-last', grid(3, 3, 3, [[1, 0, 0], [2, 4, 0], [3, 5, 6]])
    yield 'stock-peak-in-middle', grid(3, 2, 6, [[1, 0], [2, 0], [3, 0], [1, 5], [2, 6], [3, 4]])
    yield 'stock-peak-while-showing', rows(1, 5, 4, [(1, 1, 0, 1), (2, 2, 0, 2), (3, 2, 1, 2), (4, 3, 3, 4), (5, 4, 3, 4)])
    for turn in range(6):
        lines = [[1, 0], [2, 0], [3, 4], [1, 0], [2, 5], [3, 6]]
        yield f'stock-turned-{turn}', grid(3, 2, 6, lines[turn:] + lines[:turn])
    for delay, channels, pages in [(1, 3, 9), (2, 2, 8), (3, 2, 13), (4, 2, 18), (5, 2, 22), (6, 2, 26), (8, 2, 33), (12, 2, 48), (2, 3, 24), (3, 3, 24), (4, 3, 24), (8, 3, 24), (1, 4, 25), (2, 4, 14), (5, 4, 13), (1, 6, 10), (1, 8, 10), (1, 5, 20)]:
        yield f'split-{delay}-{channels}-{pages}', rows(delay, pages, channels, split(delay, channels, pages))
    yield 'split-one-slot-less', rows(1, 9, 3, split(2, 3, 9))
    yield 'most-pages-most-delay', rows(1024, 1024, 1, [(page, 1, page - 1, 1024) for page in range(1, 1025)])
    yield 'most-pages-most-delay-twice', rows(1024, 1024, 2, [(page, 1, 1024 - page, 1024) for page in range(1, 513)] + [(page, 2, 7 * page % 512, 512) for page in range(513, 1025)])
    # random grids: those that pass, those that starve and those that stray
    draw = random.Random(20261118)
    for count in range(24):
        channels, period, pages = draw.randrange(2, 5), draw.randrange(2, 13), draw.randrange(2, 8)
        above = 1 if draw.random() < 0.1 else 0
        lines = [[draw.choice([0] + list(range(1, pages + above + 1))) for _ in range(channels)] for _ in range(period)]
        entries = [(k, slot) for k in range(1, channels + 1) for slot in range(period)]
        closed = draw.sample(entries, draw.choice([0, 0, 1, len(entries) // 3]))
        yield f'random-grid-{count}', grid(draw.randrange(1, 9), channels, period, lines, pages, closed)
    for count in range(12):
        delay = draw.randrange(2, 5)
        together, most = draw.randrange(1, 60), 4 if count < 6 else 1
        turned = [(page, k, (start + together + draw.randrange(most)) % every, every) for page, k, start, every in split(delay, 2, 3 * delay)]
        yield f'random-rows-{count}', rows(delay, 3 * delay, 2, turned)
    for count in range(12):
        nodes, pages, place = [], 0, 1
        while len(nodes) < place:
            if place < 12 and draw.random() < (0.5 if nodes else 1):
                degree = draw.randrange(2, 4)
                nodes.append((place, degree))
                place += degree
            else:
                pages += 1
                nodes.append(pages)
        yield f'random-tree-{count}', tree(draw.choice([4, 8, 16, 32]), pages, 1, nodes)


if __name__ == '__main__':
    main('judged_vectors', [*cases(), *planned(), *checked()], report)
