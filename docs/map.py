"""Writes the picture and the table of crates of docs/MAP.md from crates.txt and the crates' sources, between that file's two marks.

usage: python3 docs/map.py"""
import pathlib
import re

top = pathlib.Path(__file__).resolve().parent.parent
FIRST = '<!-- written by docs/map.py -->'
LAST = '<!-- as far as here -->'


def groups():
    """The groups of crates.txt: a comment line, and the crates that stand below it with what each builds on."""
    found = [('', {})]
    for line in (top / 'crates.txt').read_text().splitlines():
        if line.startswith('#'):
            found.append((line.lstrip('# ').rstrip('.'), {}))
        elif ':' in line:
            name, needs = line.split('#')[0].split(':')
            # a static library says so after its name
            found[-1][1][name.split()[0]] = needs.split()
    return [(title, rooms) for title, rooms in found if rooms]


def crates():
    return {name: needs for _, rooms in groups() for name, needs in rooms.items()}


def below(name, house):
    """All that a crate rests on, of this repository."""
    return {d for need in house[name] if need in house for d in {need} | below(need, house)}


def arrows(name, house):
    """What a crate builds on and none of the others that it builds on does."""
    near = [d for d in house[name] if d in house]
    return [d for d in near if not any(d in below(other, house) for other in near)]


def source(name):
    """The file of a crate that has its first comment: a program's or a library's."""
    return next(f for f in (top / 'crates' / name / 'src' / 'main.rt', top / 'crates' / name / 'src' / 'lib.rt') if f.is_file())


def kind(name):
    if source(name).name == 'main.rt':
        return 'program'
    code = ' '.join(f.read_text() for f in (top / 'crates' / name / 'src').rglob('*.rt'))
    return 'library' if re.search(r'^ *(pub )?(extern "C" )?fn ', code, re.M) else 'definitions'


# a crate's name in the graph: some of them, as `graph`, are words of its language
def node(name):
    return f'c_{name}'


SHAPES = {'program': '(["{}"])', 'library': '["{}"]', 'definitions': '[["{}"]]'}


def graph():
    house = crates()
    lines = ['```mermaid', 'flowchart TD']
    for number, (title, rooms) in enumerate(groups(), 1):
        lines.append(f'    subgraph group{number}["{title}"]')
        lines += [f'        {node(name)}{SHAPES[kind(name)].format(name)}' for name in rooms]
        lines.append('    end')
    lines += [f'    {node(name)} --> {" & ".join(map(node, arrows(name, house)))}' for name in house if arrows(name, house)]
    return '\n'.join(lines + ['```'])


def says(name):
    """The first sentence of a crate's source."""
    head = re.match(r'(?:// ?.*\n)+', source(name).read_text())
    words = ' '.join(line.lstrip('/ ') for line in head.group(0).splitlines()) if head else ''
    return re.split(r'(?<=[.;]) ', words)[0].rstrip('.;')


def rooms():
    lines = ['| crate | kind | what it is, in the words of its source |', '|---|---|---|']
    return '\n'.join(lines + [f'| [{name}](../crates/{name}) | {kind(name)} | {says(name)} |' for name in crates()])


def anew(text):
    """The text of docs/MAP.md with what stands between its marks written anew."""
    before, rest = text.split(FIRST)
    after = rest.split(LAST)[1]
    return f'{before}{FIRST}\n\n{graph()}\n\n{rooms()}\n\n{LAST}{after}'


if __name__ == '__main__':
    page = top / 'docs' / 'MAP.md'
    page.write_text(anew(page.read_text()))
