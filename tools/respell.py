#!/usr/bin/env python3
"""Respells the repository's own definitions and lemmas as today's Rattle spells names: words in snake case, a dash only between two names.

usage: python3 tools/respell.py            at the top of a tree that port.py has just turned: rewrites specs/, proofs/, clauses and pages in place
       python3 tools/respell.py --list     prints each name with its new spelling, and changes nothing

Types, facts and modules keep their capitals. Functions of src/, exported names, strings, comments outside backquotes, and names that Rattle makes for
a function's goals keep their spelling. It stops where two names would fall together.
"""
import collections
import pathlib
import re
import sys

TOP = pathlib.Path('.')
CRATES = TOP / 'crates'
TOKEN = re.compile(r"[^\s(){}\[\].,;:\"«»⌜⌝`]+")
SIGNATURE = re.compile(r'^( *)((?:(?:unfoldable|abbrev|pub|record|data|ruleset) )*)([^\s(){}:,]+) (?=[:({])', re.M)
# words of the library that stand for a function in a lemma's name
LIBRARY = {'length', 'take', 'drop', 'get_or', 'map', 'append', 'reverse', 'sum', 'set', 'mem', 'filter', 'bit_and', 'bit_or'}
# what a plain respelling would bring together with another name, or would hide a parameter
BY_HAND = {'in_one': 'in_one_lem', 'in_order': 'in_order_lem'}


def comments_out(text):
    return re.sub(r'(^|\s)--(\s.*|$)', lambda m: m.group(1) + ' ' * len(m.group(2)), text, flags=re.M)


def snake(word):
    return re.sub(r'(?<=[A-Za-z0-9])([A-Z])', lambda m: '_' + m.group(1).lower(), word) if is_lower(word) else word


def is_lower(word):
    return word[:1].islower()


def sources():
    for pattern in ('*/specs/**/*.antt', '*/proofs/**/*.antt'):
        yield from sorted(CRATES.glob(pattern))


def declared():
    """Each name that specs/ and proofs/ declare, with the files; which of them are fields or constructors; which are definitions of specs/."""
    where, members, words = collections.defaultdict(set), set(), set()
    for file in sources():
        text = comments_out(file.read_text())
        inside = False
        for line in text.splitlines():
            if re.match(r'(pub )?(record|data) |(pub )?(abbrev |unfoldable )*(pub )?(record|data) ', line):
                inside = True
            elif line.strip() and not line.startswith(' '):
                inside = False
            found = SIGNATURE.match(line)
            if not found:
                continue
            name = found.group(3)
            where[name].add(file)
            if inside and found.group(1):
                members.add(name)
            if 'specs' in file.parts and is_lower(name) and not (inside and found.group(1)) and '-' not in name:
                words.add(name)
    return where, members, words


def spellings():
    where, members, words = declared()
    made = set()
    for file in sources():
        made |= set(re.findall(r'\b(?:tie|goal)\.([^\s(){}\[\].,;:]+)', file.read_text()))
    # a name that some file has from the library keeps the library's spelling
    for file in sources():
        for path, items in re.findall(r'^(?:pub |unfoldable )*use ([^{\n]*)\{([^}]*)\}', file.read_text(), re.M):
            own = re.match(r'Rattle\.(\w+)\.', path)
            if not (own and (CRATES / own.group(1)).is_dir()):
                made |= set(TOKEN.findall(items))
    known = {snake(w) for w in words} | LIBRARY
    names = {}
    for name, files in where.items():
        if name in made:
            continue
        in_function = all('proofs' in f.parts and f.parent.name != 'proofs' for f in files)
        new = name
        if is_lower(name):
            parts = [snake(part).replace('getD', 'get_or').replace('get_d', 'get_or') for part in name.split('-')]
            if '-' in name and in_function:
                new = '-'.join(parts)
            else:
                new = parts[0]
                for left, right in zip(parts, parts[1:]):
                    both = (left in known or not left[:1].isalpha()) and (right in known or not right[:1].isalpha() or right[:1].isupper())
                    new += ('-' if both and name not in members else '_') + right
        new = BY_HAND.get(name, new)
        if new != name:
            names[name] = new
    # a lemma that would have its function's name gets `_lem`
    plain = {new for old, new in names.items() if '-' not in old} | {name for name in where if name not in names}
    for name in names:
        if '-' in name and names[name] in plain:
            names[name] += '_lem'
    return names, where


def collisions(names, where):
    """Where a new name falls together with another: in the whole tree for the new ones, and else in a file that has both, or as a parameter."""
    taken = collections.defaultdict(list)
    for old, new in names.items():
        taken[new].append(old)
    for new, olds in sorted(taken.items()):
        if len(olds) > 1:
            yield f'{new}: of {olds}'
    for file in [*sources(), *sorted(CRATES.glob('*/src/**/*.rt'))]:
        source = file.read_text()
        text = comments_out(source) if file.suffix == '.antt' else ' '.join(text for inside, text in clauses(source) if inside)
        tokens = {m.group(0) for m in re.finditer(r'(?<![\w.])' + TOKEN.pattern, text)}
        for token in sorted(tokens & names.keys()):
            if names[token] in tokens - names.keys():
                yield f'{file}: {token} and {names[token]}'
        if file.suffix == '.rt':
            for head in re.finditer(r'\bfn (\w+)[^(]*\(([^{;]*?)\)[^{;]*?((?:\n    (?:requires|ensures)[^\n]*(?:\n      [^\n]*)*)+)', source):
                parameters = set(re.findall(r'(\w+):', head.group(2)))
                for token in {m.group(0) for m in re.finditer(r'(?<![\w.])' + TOKEN.pattern, head.group(3))} & names.keys():
                    if names[token] in parameters:
                        yield f'{file}: {head.group(1)} has a parameter {names[token]}, which hides {token}'


def clauses(text):
    """The parts of a source, each with whether it is read as antt: `ghost use` items, and the braces of clauses and ghost items."""
    at = 0
    for found in re.finditer(r'^[^\n]*?(?:(?<![\w/])ghost use [^;]*;|(?<![\w/])(?:requires|ensures|ghost|decreases)\b[^{\n;]*\{)', text, re.M):
        if found.start() < at or '//' in found.group(0):
            continue
        end = found.end()
        if not found.group(0).endswith(';'):
            depth = 1
            while depth:
                depth += {'{': 1, '}': -1}.get(text[end], 0)
                end += 1
        yield False, text[at:found.start()]
        yield True, text[found.start():end]
        at = end
    yield False, text[at:]


def respell(text, names):
    return TOKEN.sub(lambda m: names.get(m.group(0), m.group(0)), text)


def in_quotes(text, names):
    return re.sub(r'`[^`\n]+`', lambda m: respell(m.group(0), names), text)


def turned(file, names):
    text = file.read_text()
    if file.suffix == '.antt':
        return ''.join(
            in_quotes(part, names) if re.match(r'(^|\s)--(\s|$)', part) else respell(part, names)
            for part in re.split(r'((?:^|(?<=\s))--(?:\s.*|$))', text, flags=re.M) if part
        )
    if file.suffix == '.rt':
        return ''.join(respell(part, names) if inside else in_quotes(part, names) for inside, part in clauses(text))
    return in_quotes(text, names)


def main(argv):
    names, where = spellings()
    if argv == ['--list']:
        for old, new in sorted(names.items()):
            print(old, new)
        print('\n'.join(collisions(names, where)))
        return 0
    bad = list(collisions(names, where))
    if bad:
        print('\n'.join(bad), file=sys.stderr)
        return 1
    pages = [*sorted(TOP.glob('*.md')), *(f for f in sorted(TOP.glob('docs/*.md')) if f.name != 'PORT.md'), *sorted(TOP.glob('*/README.md'))]
    for file in [*sources(), *sorted(CRATES.glob('*/src/**/*.rt')), *pages]:
        new = turned(file, names)
        if new != file.read_text():
            file.write_text(new)
    return 0


if __name__ == '__main__':
    sys.exit(main(sys.argv[1:]))
