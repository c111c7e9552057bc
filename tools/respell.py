#!/usr/bin/env python3
"""respell.py [--check]: spells the repository's own definitions and lemmas as today's Rattle does: words in snake case, a dash only between names.

From the repository's root, once, after /opt/rattle/port/port.py. It rewrites .antt and .rt files, must-fail edits and the names in backticks
of README.md and docs/. A name that a file takes from the kit's library stays there. --check writes nothing, and lists names that fall together.
"""
import collections
import os
import re
import sys

CHECK = '--check' in sys.argv
STOP = r"\s(){}\[\],;.:`\"⌜⌝"
WORD = re.compile(r"(?<![^%s])([^%s]+)(?![^%s])" % (STOP, STOP, STOP))
KEYWORDS = set('let in elim where module infix rw go if unfolding use mod = → | λ ∙ ( ) subst ap omega × _ pub abbrev data record'.split())
# functions of the library whose lemmas are named after them
NAMES = set('length take drop append map replicate reverse set get_or suc sum count cons snoc nil uncons cmp compare mul add sub div mod pow min max le lt'.split())
# words that also name a function, and stand as words
WORDS = set('above at after before below asked answer binder book calls course end ended final first found fresh from given in is it last least left line lines looked moved next of on one open over'
    ' place places put read row said same set some steps step taken text the to top turns under up what with within'.split())
# names that would fall together
APART = {'is-lt': 'is_less'} | {n: re.sub('-', '_', n) + '_lem' for n in (
    'first_block', 'fit_at', 'kept_then', 'lower_of', 'number-of', 'least-index', 'lyndon-below', 'moved-if', 'needed-in', 'of-kind',
    'ring-places', 'rows-below', 'up-tried', 'without-offers', 'all-trials', 'is-answer', 'is-necklace', 'names-line', 'refused-offer', 'refused-put',
    'ring-next', 'same-offer', 'same-walk', 'scan-from', 'scan-more', 'ends-in-one',
)}


def read(p):
    with open(p, encoding='utf-8') as f:
        return f.read()


def files(*endings):
    for d, ds, fs in os.walk('crates'):
        ds[:] = sorted(x for x in ds if x not in ('out', 'target'))
        for f in sorted(fs):
            if f.endswith(endings):
                yield os.path.join(d, f)


def declared(text):
    for l in text.split('\n'):
        l = re.sub(r'\s--\s.*', '', l)
        if re.match(r'\s*(--|(pub |ghost )*use |mod |pub mod )', l):
            continue
        m = re.match(r'^\s*(?:pub |abbrev |unfoldable |data |record |private )*([^%s]+)(\s.*|\s*)$' % STOP, l)
        if m and m.group(1) not in KEYWORDS and re.search(r'(^|\s):(\s|$)', m.group(2)):
            yield m.group(1)
        for f in re.finditer(r'[{;]\s*([^%s]+)\s+:\s' % STOP, l):
            if 'record' in l:
                yield f.group(1)


def own_specs():
    found = set()
    for p in files('.antt'):
        if '/specs/' in p:
            found.update(n for n in re.findall(r'^(?:pub |abbrev |unfoldable )*([a-z]+) :', read(p), re.M))
    return found - WORDS


def snake(s):
    if re.search(r'(?<=[a-z0-9])[A-Z]', s) and s[0].islower():
        return re.sub(r'(?<=[a-z0-9])[A-Z]', lambda m: '_' + m.group(0).lower(), s)
    return s


def respelled(name, names):
    if name[0].isupper() or not re.search(r'[A-Za-z]', name):
        return name
    head = re.match(r'\W*', name).group(0) if not re.match(r'[\w≺≼▹]', name) else ''
    parts = re.sub(r'(?<=\w)-(?=→)', '-', name[len(head):]).split('-')
    out = snake(parts[0])
    for a, b in zip(parts, parts[1:]):
        a1 = a in names or not re.match(r'\w', a) or bool(re.fullmatch(r'[≺≼▹∷]+', a))
        b1 = b in names or bool(re.fullmatch(r'[≺≼▹∷]+', b))
        out += ('-' if a and b and a1 and b1 else '_' if a and b else '-') + snake(b)
    return head + out


def imports(text):
    """The names that a file takes from outside the repository's crates, and those that it takes from them."""
    mine = '|'.join(sorted(os.listdir('crates')))
    foreign, own = set(), set()
    for m in re.finditer(r'use ([^\s{;]+?)\.\{([^}]*)\}', text):
        into = own if re.match(r'Rattle\.(%s)\.' % mine, m.group(1)) else foreign
        for n in m.group(2).split(','):
            into.update(x.strip() for x in n.split(' as ') if x.strip())
    return foreign - own, own


def line(l, turn):
    """A line with its names turned, but no comment and no text."""
    if re.match(r'\s*(#|--|//)|file:', l):
        return l
    parts = re.split(r'("(?:[^"\\]|\\.)*"|\s(?:--|//)\s.*)', l)
    return ''.join(q if i % 2 else WORD.sub(turn, q) for i, q in enumerate(parts))


def main():
    names = NAMES | own_specs()
    table = {}
    for p in files('.antt'):
        for n in declared(read(p)):
            new = APART.get(n, respelled(n, names))
            if new != n:
                table[n] = new
    changed = 0
    together = collections.defaultdict(set)
    for p in list(files('.antt', '.rt', '.edit')) + ['README.md'] + ['docs/' + f for f in os.listdir('docs') if f.endswith('.md')] + ['docs/changes/' + f for f in os.listdir('docs/changes')]:
        text = read(p)
        foreign, _ = imports(text)
        seen = {}

        def turn(m):
            n = m.group(1)
            new = n if n in foreign else table.get(n, n)
            if p.endswith('.antt'):
                seen.setdefault(new, set()).add(n)
            return new

        if p.endswith('.md'):
            new = re.sub(r'`[^`\n]+`', lambda m: WORD.sub(turn, m.group(0)), text)
        else:
            new = '\n'.join(line(l, turn) for l in text.split('\n'))
        for k, v in seen.items():
            if len(v) > 1:
                together[(k, tuple(sorted(v)))].add(p)
        if new != text:
            changed += 1
            if not CHECK:
                with open(p, 'w', encoding='utf-8') as f:
                    f.write(new)
    for (k, v), ps in sorted(together.items()):
        print('together:', k, '<-', ' '.join(v), 'in', ' '.join(sorted(ps)[:4]))
    print('%d names, %d files' % (len(table), changed))
    if CHECK:
        for a, b in sorted(table.items()):
            print(a, '->', b)


main()
