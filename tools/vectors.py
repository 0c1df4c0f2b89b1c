#!/usr/bin/env python3
"""Writes the cases of crates/vectors (stdin) and what is expected of each (stdout), the latter by reference.py.

vectors.py          writes crates/vectors/stdin and crates/vectors/stdout anew
vectors.py --check  says whether they are as it would write them
"""
import os
import random
import sys

from reference import BODY, report

FILM = '010004000501'
END = '00'
CHANNEL = '0202'
ROW = '03000101000000000000000c'
LEAF = '040001'
INNER = '0500010002'
CLOSURE = '06010000000b'
ONE = {0: END, 1: FILM, 2: CHANNEL, 3: ROW, 4: LEAF, 5: INNER, 6: CLOSURE}


def octets(text):
    out = b''
    for piece in text.split():
        digits, _, times = piece.partition('x')
        out += bytes.fromhex(digits) * int(times or 1)
    return out


def cases():
    yield 'empty', ''
    yield 'pagoda', f'{FILM} {CHANNEL} {END}'
    yield 'pagoda-closed', f'{FILM} {CHANNEL} {CLOSURE} {END}'
    yield 'rows', f'{FILM} {ROW}x3 {END}'
    yield 'leaves', f'{FILM} {LEAF}x2 {END}'
    yield 'tree', f'{FILM} {INNER} {LEAF} {INNER} {LEAF}x3 {CLOSURE}x2 {END}'
    yield 'numbers', f'01ffff0100ff {CHANNEL} {END}'
    yield 'zeros', f'010000000000 {CHANNEL} {END}'
    # every way in which one record follows the records before it
    before = {
        'nothing': '', 'film': FILM, 'channel': FILM + CHANNEL, 'row': FILM + ROW, 'leaf': FILM + LEAF,
        'inner': FILM + INNER, 'closure': FILM + CHANNEL + CLOSURE, 'closed-row': FILM + ROW + CLOSURE,
        'closed-leaf': FILM + LEAF + CLOSURE, 'end': FILM + CHANNEL + END,
    }
    for name, front in before.items():
        for kind in list(range(0, 9)) + [127, 255]:
            text = ONE.get(kind, '%02x' % kind)
            yield f'{name}-then-{kind}', f'{front} {text} {END}'
            if len(text) > 2:
                yield f'{name}-then-cut-{kind}', f'{front} {text[:-2]}'
            yield f'{name}-then-bare-{kind}', f'{front} {text[:2]}'
    # each maximum met, and passed by one
    for name, text, most in [('channels', CHANNEL, 8), ('rows', ROW, 1024), ('leaves', LEAF, 2048), ('inners', INNER, 2048)]:
        for count in (most - 1, most, most + 1):
            yield f'{name}-{count}', f'{FILM} {text}x{count} {END}'
        yield f'{name}-{most + 1}-cut', f'{FILM} {text}x{most} {text[:2]}'
        yield f'{name}-{most}-closures-64', f'{FILM} {text}x{most} {CLOSURE}x64 {END}'
        yield f'{name}-{most}-closures-65', f'{FILM} {text}x{most} {CLOSURE}x65 {END}'
    yield 'nodes-2048-mixed', f'{FILM} {LEAF}{INNER}x1024 {END}'
    yield 'nodes-2049-mixed', f'{FILM} {LEAF}{INNER}x1024 {LEAF} {END}'
    for count in (63, 64, 65):
        yield f'closures-{count}', f'{FILM} {CHANNEL} {CLOSURE}x{count} {END}'
    for count in (32767, 32768, 32769, 40000):
        yield f'long-unknown-{count}', f'07x{count}'
        yield f'long-after-end-{count}', f'{FILM} {CHANNEL} {END} 00x{count - 9}'
    # bytes after the end
    for tail in ('00', '01', 'ff', FILM, FILM + CHANNEL + END):
        yield f'tail-{tail}', f'{FILM} {CHANNEL} {END} {tail}'
    # good files cut at every byte
    whole = {
        'pagoda': FILM + CHANNEL * 2 + CLOSURE * 2 + END, 'rows': FILM + ROW * 2 + CLOSURE + END,
        'tree': FILM + INNER + LEAF * 2 + CLOSURE + END,
    }
    for name, text in whole.items():
        for size in range(0, len(text), 2):
            yield f'{name}-first-{size // 2}', text[:size]
    # one byte changed, and files of random records
    draw = random.Random(20261117)
    for name, text in whole.items():
        for place in range(0, len(text), 2):
            yield f'{name}-changed-{place // 2}', text[:place] + '%02x' % draw.randrange(0, 9) + text[place + 2:]
    for count in range(60):
        kinds = [1] + [draw.choice([2, 3, 4, 5, 6, 0, 1, 7]) if draw.random() < 0.2 else draw.choice([4, 5]) for _ in range(draw.randrange(1, 6))] + [0]
        text = ''.join('%02x' % kind + ''.join('%02x' % draw.randrange(256) for _ in range(BODY.get(kind, 0))) for kind in kinds)
        yield f'random-{count}', text


def film(delay, pages, channels):
    return '01%04x%04x%02x' % (delay, pages, channels)


def row(page, channel, start, period):
    return '03%04x%02x%08x%08x' % (page, channel, start, period)


def inner(first, degree):
    return '05%04x%04x' % (first, degree)


def closure(channel, slot):
    return '06%02x%08x' % (channel, slot)


def dealt(delay, counts):
    """The pages that a pagoda plan deals, to meet the film's number or to miss it by one."""
    first = 1
    for count in counts:
        for _ in range(count):
            first += (delay + first - 1) // count if count else 0
    return first - 1


def planned():
    # every edge of the film's numbers
    for delay in (0, 1, 1024, 1025, 65535):
        yield f'delay-{delay}', f'{film(delay, 1, 1)} {ROW} {END}'
    for pages in (0, 1, 1024, 1025, 65535):
        yield f'pages-{pages}', f'{film(1, pages, 1)} {ROW} {END}'
    for channels in (0, 1, 8, 9, 255):
        yield f'channels-{channels}-of-rows', f'{film(1, 1, channels)} {ROW} {END}'
        yield f'channels-{channels}-of-8-leaves', f'{film(1, 1, channels)} {LEAF}x8 {END}'
        yield f'channels-{channels}-of-7-leaves', f'{film(1, 1, channels)} {LEAF}x7 {END}'
    # pagoda plans, with the pages met and missed by one
    loops = [(9, [3]), (4, [2]), (4, [2, 3]), (3, [3]), (3, [4]), (1024, [1]), (1024, [1, 1]), (100, [10]), (1, [1] * 8), (32, [32]), (32, [33]), (33, [33]), (1, [0]), (1024, [32]), (31, [32]), (1, [1, 2]), (1, [1, 1, 2]), (1, [1, 2, 3, 4, 5, 6, 7, 8]), (2, [1, 33]), (1, [1, 2, 4, 8]), (1023, [1]), (512, [1, 1]), (341, [1, 1, 1])]
    for delay, counts in loops:
        text = ''.join('02%02x' % count for count in counts)
        for pages in {max(1, min(1024, dealt(delay, counts) + more)) for more in (-1, 0, 1)}:
            yield f'pagoda-{delay}-{"-".join(map(str, counts))}-of-{pages}', f'{film(delay, pages, len(counts))} {text} {END}'
    for channels in (1, 2, 3):
        yield f'pagoda-two-channels-of-{channels}', f'{film(4, 17, channels)} 02020203 {END}'
    # rows: periods that meet the longest, pass it, or pass what a machine's number holds
    for name, periods in [('none', [0]), ('one', [1]), ('longest', [65536]), ('longer', [65537]), ('halves', [256, 65536]), ('primes', [65537, 65536]), ('most', [4294967295]), ('wraps-32', [65536, 65537, 4294901761]), ('wraps-64', [4294967295, 4294967294, 4294967293]), ('zero-last', [65537, 0]), ('zero-first', [0, 1]), ('common', [6, 4, 10, 15]), ('long-by-three', [128, 81, 25]), ('short-by-two', [2048, 32])]:
        yield f'rows-{name}', f'{film(1, 1, 1)} {"".join(row(1, 1, 0, q) for q in periods)} {END}'
    yield 'rows-absurd', f'{film(1, 1, 1)} {row(65535, 255, 4294967295, 7)} {row(0, 0, 9, 3)} {END}'
    # trees
    yield 'tree-worked', f'{film(2, 3, 1)} {inner(1, 2)} {LEAF} {inner(3, 2)} {LEAF}x2 {END}'
    yield 'tree-two-roots', f'{film(2, 3, 2)} {inner(2, 2)} {inner(4, 3)} {LEAF}x5 {END}'
    yield 'tree-shared', f'{film(2, 3, 2)} {inner(2, 2)} {inner(2, 3)} {LEAF}x3 {END}'
    yield 'tree-no-degree', f'{film(2, 3, 1)} {LEAF} {inner(2, 0)} {LEAF} {END}'
    yield 'tree-own-child', f'{film(2, 3, 1)} {LEAF} {inner(1, 1)} {LEAF} {END}'
    yield 'tree-child-before', f'{film(2, 3, 1)} {LEAF} {inner(0, 1)} {LEAF} {END}'
    yield 'tree-beyond', f'{film(2, 3, 1)} {inner(1, 3)} {LEAF}x2 {END}'
    yield 'tree-to-the-end', f'{film(2, 3, 1)} {inner(1, 2)} {LEAF}x2 {END}'
    yield 'tree-far-beyond', f'{film(2, 3, 1)} {inner(65535, 65535)} {LEAF}x2 {END}'
    yield 'tree-unreached-wrong', f'{film(2, 3, 1)} {LEAF} {inner(0, 9)} {END}'
    yield 'tree-unreached-long', f'{film(2, 3, 1)} {LEAF} {inner(2, 256)}{inner(258, 257)} {LEAF}x513 {END}'
    yield 'tree-chain', f'{film(2, 3, 1)} {"".join(inner(x + 1, 1) for x in range(2047))} {LEAF} {END}'
    yield 'tree-doubling-16', f'{film(2, 3, 1)} {"".join(inner(x + 1, 2) for x in range(16))} {LEAF}x2 {END}'
    yield 'tree-doubling-17', f'{film(2, 3, 1)} {"".join(inner(x + 1, 2) for x in range(17))} {LEAF}x2 {END}'
    yield 'tree-roots-together-long', f'{film(2, 3, 3)} {inner(3, 251)}{inner(3, 241)}{inner(3, 239)} {LEAF}x251 {END}'
    yield 'tree-wrong-and-out-of-range', f'{film(0, 3, 1)} {inner(0, 0)} {END}'
    # closures: each edge of the entry, and the same entry again
    for channel, slot in [(0, 0), (1, 0), (1, 11), (1, 12), (2, 0), (255, 4294967295), (1, 4294967295)]:
        yield f'closed-{channel}-{slot}', f'{FILM} {CHANNEL} {closure(channel, slot)} {END}'
    yield 'closed-twice', f'{FILM} {CHANNEL} {closure(1, 3)}{closure(1, 4)}{closure(1, 3)} {END}'
    yield 'closed-twice-and-out', f'{FILM} {CHANNEL} {closure(1, 3)}{closure(1, 3)}{closure(9, 3)} {END}'
    yield 'closed-out-and-twice', f'{FILM} {CHANNEL} {closure(1, 3)}{closure(9, 3)}{closure(1, 3)} {END}'
    yield 'closed-row', f'{film(1, 1, 2)} {row(1, 1, 0, 5)} {closure(2, 4)}{closure(2, 5)} {END}'
    yield 'closed-node', f'{film(2, 3, 1)} {inner(1, 3)} {LEAF}x3 {closure(1, 2)}{closure(1, 3)} {END}'
    yield 'closed-all', f'{film(1, 1, 1)} {row(1, 1, 0, 64)} {"".join(closure(1, t) for t in range(64))} {END}'


def texts(named, report):
    given, wanted = [], []
    for name, text in named:
        given.append(f'{name} {" ".join(text.split())}'.rstrip())
        wanted.append('\n'.join([name] + ['  ' + line for line in report(octets(text))]))
    return '\n'.join(given) + '\n', '\n'.join(wanted) + '\n'


def main(crate, named, report):
    """Writes the cases and what is expected of them into a crate, or says whether they stand there."""
    folder = os.path.join(os.path.dirname(os.path.abspath(__file__)), '..', 'crates', crate)
    same = True
    for name, text in zip(('stdin', 'stdout'), texts(named, report)):
        path = os.path.join(folder, name)
        if '--check' in sys.argv[1:]:
            same = same and os.path.exists(path) and open(path).read() == text
        else:
            with open(path, 'w') as file:
                file.write(text)
    print('as expected' if same else 'not as expected')
    sys.exit(0 if same else 1)


if __name__ == '__main__':
    main('vectors', [*cases(), *planned()], report)
