#!/usr/bin/env python3
"""Respells this repository's own names: definitions, facts, fields and lemmas whose words a dash joined. A name of small
letters gets underscores, a type gets capitals. Run once, at the top of the repository, after the toolchain's own script.

respell.py          respells every crate in place, and prints how many names and files changed
respell.py --list   prints the names, old and new, and changes nothing

Names that the prover makes of the code (goals, and what an answer cites of them) and the library's names stay.
"""
import glob
import re
import sys

# a word of a proof or a clause
WORD = re.compile(r'[^\s(){}\[\].;,@"«»|]+')
HEAD = re.compile(r'^ *(?:(?:abbrev|unfoldable|pub|data|record) )*(?P<name>[^\s(){}\[\].;,:@"]+)(?P<rest> .*)$')
# the first part of what an answer cites is a name that the prover made
MADE = re.compile(r'(?<![^\s({;,])(?:c|w|l|g|goal|need|needs|choices)\.\Z')
# what would fall together with another name
OTHERWISE = {'Comes-round': 'ComesInTurn'}


def camel(name):
    first, *others = name.split('-')
    return first + ''.join(word[:1].upper() + word[1:] for word in others)


def respelled(name):
    if name in OTHERWISE:
        return OTHERWISE[name]
    return camel(name) if name[0].isupper() else name.replace('-', '_')


def files(*endings):
    return sorted(f for e in endings for f in glob.glob(f'crates/*/**/*{e}', recursive=True) if '/out/' not in f)


def declared(path):
    """The names with a dash that a file declares, but for the answers to the prover's goals."""
    for line in open(path, encoding='utf8'):
        if line.lstrip().startswith('--') or 'goal.' in line:
            continue
        m = HEAD.match(line.rstrip('\n'))
        if not m or '-' not in m['name'].strip('-') or '◌' in m['name']:
            continue
        rest = m['rest']
        typed = re.match(r'^(?: [({][^:]*: .*[)}])* : ', rest) or (re.match(r'^ [({]', rest) and re.search(r'\b(data|record) ', line))
        if typed:
            yield m['name']


def of_source():
    """The names of the sources with an underscore: clauses, functions, fields, variables."""
    for path in files('.rt'):
        for line in open(path, encoding='utf8'):
            yield from re.findall(r'\b[a-z][a-z0-9]*(?:_[a-z0-9]+)+\b', re.sub(r'//.*|"[^"]*"', '', line))


def imported(text):
    """The names that a file imports from elsewhere than this repository."""
    out = set()
    own = {f.split('/')[1] for f in glob.glob('crates/*/src')}
    for m in re.finditer(r'use ([^\s;{]+)\.\{([^}]*)\}', text):
        parts = m[1].split('.')
        if parts[0] == 'Rattle' and len(parts) > 1 and parts[1] in own and parts[-1] not in ('Goals', 'Given'):
            continue
        out |= {w.strip() for w in m[2].split(',')}
    return out


def main():
    table, everything = {}, set()
    for path in files('.antt'):
        for name in declared(path):
            table[name] = respelled(name)
    outside = set()
    for path in files('.antt', '.rt'):
        text = open(path, encoding='utf8').read()
        everything |= set(WORD.findall(text))
        outside |= imported(text)
    for name in sorted(table):
        new = table[name]
        if new in everything or new in outside or list(table.values()).count(new) > 1:
            print(f'falls together: {name} -> {new}', file=sys.stderr)
    if '--list' in sys.argv:
        for name in sorted(table):
            print(name, table[name])
        return
    # what the prover makes of a name of the sources has that name's spelling now
    made = {name.replace('_', '-'): name for name in of_source()}
    changed = 0
    for path in files('.antt', '.rt', '.edit'):
        text = open(path, encoding='utf8').read()
        stays = imported(text)
        new = WORD.sub(lambda m: m[0] if m[0] in stays or MADE.search(text[max(0, m.start() - 12):m.start()]) else table.get(m[0]) or (made if '/proofs/' in path else {}).get(m[0], m[0]), text)
        if new != text:
            changed += 1
            open(path, 'w', encoding='utf8').write(new)
    print(f'respelled {len(table)} names in {changed} files')


main()
