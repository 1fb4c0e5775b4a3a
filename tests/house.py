"""crates.txt holds to the tree: each crate lists just those that its code, contracts, specs or proofs use (`libc`, which `io` brings along, is not one of
them, unless it is named). And docs/MAP.md holds to it: its picture and its table of crates are those that docs/map.py writes; of what stands there in
backquotes, a path is there (a word in capitals stands for any name), a name that follows a path directly is defined in that file, `crate::name` is in
that crate's code, and any other single name is in some file. Its links lead to files."""
import pathlib
import re
import subprocess
import sys

from closing import check, close

top = pathlib.Path(__file__).resolve().parent.parent
sys.path.insert(0, str(top / 'docs'))
from map import FIRST, LAST, anew, crates  # noqa: E402

KIT = ['io', 'libc', 'os', 'check', 'bytes']
house = crates()


# ---- What a crate uses

def without_comments(file):
    return re.sub(r'(^|\s)//.*' if file.suffix == '.rt' else r'(^|\s)--(\s.*|$)', r'\1', file.read_text(), flags=re.M)


def used_by(name):
    """The crates that a crate names, each with a file that does."""
    found = {}
    for folder, pattern in (('src', '*.rt'), ('specs', '*.antt'), ('proofs', '*.antt')):
        for file in sorted((top / 'crates' / name / folder).rglob(pattern)):
            text = without_comments(file)
            named = re.findall(r'\bRattle\.([a-z0-9_]+)', text)
            if folder == 'src':
                # what is brought in from std is not the kit's crate of the same name, as `io`
                std = re.findall(r'\w+', ' '.join(''.join(names) for names in re.findall(r'^use std::(?:\{([\w, ]+)\};|(\w+)(?:;|::\{self\b))', text, re.M)))
                named += [other for other in re.findall(r'(?<![\w:])([a-z0-9_]+)::', text) if other not in std]
            for other in set(named) & ({*house, *KIT} - {name}):
                found.setdefault(other, file.relative_to(top))
    return found


def code_of(name):
    return '\n'.join(without_comments(file) for file in sorted((top / 'crates' / name / 'src').rglob('*.rt')))


def carries(name):
    """The fields and variants of a crate's types that have a type of another crate, each with that crate."""
    code = code_of(name)
    brought = {item: other for other, items in re.findall(r'^use (\w+)::(\w+|\{[^}]*\});', code, re.M) for item in re.findall(r'\w+', items)}
    bodies = ''.join(re.findall(r'^pub (?:struct|enum) \w+ \{\n(.*?)^\}', code, re.M | re.S))
    return [(field, brought[item]) for field, kinds in re.findall(r'(\w+)(?:: |\()([^\n]*)', bodies) for item in re.findall(r'\w+', kinds) if item in brought]


def reached_by(name):
    """The crates whose types a crate's code looks into by a field or a variant of a type of another, as `plan.tally.products`: the checker needs
    these to be listed, though they are not named."""
    code = code_of(name)
    return {other for near in house[name] if near in house for field, other in carries(near) if re.search(rf'(\w\.|::){field}\b', code)}


for name, needs in house.items():
    used = used_by(name)
    for need in needs:
        check(need in used or need in reached_by(name), f'crates.txt: {name} lists {need}, and nothing of it uses that')
    for need in sorted(set(used) - set(needs)):
        check(False, f'crates.txt: {name} does not list {need}, and {used[need]} uses it')
    check(len(set(needs)) == len(needs), f'crates.txt: {name} lists a crate twice')


# ---- docs/MAP.md

text = (top / 'docs' / 'MAP.md').read_text()
check(anew(text) == text, 'docs/MAP.md: the picture is not that of the tree: run `python3 docs/map.py`')
written = re.sub(re.escape(FIRST) + r'.*?' + re.escape(LAST) + r'|```.*?```', '', text, flags=re.S)

tracked = subprocess.run(['git', 'ls-files'], cwd=top, capture_output=True, text=True).stdout.split()
words = set()
for file in tracked:
    if not file.startswith('docs/') and (top / file).is_file():
        words |= set(re.findall(r"[\w'-]+", (top / file).read_bytes().decode('utf-8', 'replace')))


def files(path):
    """The files of a path; NAME, LABEL and the like stand for any name."""
    return list(top.glob(re.sub(r'\b[A-Z]{3,}\b(?!\.md)', '*', path)))


def is_path(token):
    return '/' in token or re.fullmatch(r'[\w-]+\.(md|txt|py|rt|rs|antt|h|c|toml)', token)


def has(file, name):
    """Does a file have a name; a file of Rattle or antt, as a name that it defines?"""
    before = {'.antt': r'^(?:(?:unfoldable|abbrev|pub|record|data) )*', '.rt': r'\b(?:fn|struct|enum|const) '}.get(file.suffix, r'(?<![\w-])')
    return file.is_file() and re.search(before + re.escape(name) + r'(?![\w\'-])', file.read_text(), re.M)


def elsewhere(found):
    """Where what is missing is now, as far as names tell."""
    return f' (now {", ".join(map(str, found))}?)' if found else ''


for token in sorted(set(re.findall(r'`([^`\n]+)`', written))):
    item = re.fullmatch(r'(\w+)::(\w+)', token)
    if item:
        there = [f'{crate}::{item[2]}' for crate in house if any(has(file, item[2]) for file in (top / 'crates' / crate).glob('src/*.rt'))]
        check(token in there, f'docs/MAP.md: `{token}`: no such item in crates/{item[1]}/src{elsewhere(there)}')
    elif is_path(token) and ' ' not in token:
        there = [file.relative_to(top) for file in (top / 'crates').rglob(pathlib.Path(token).name)] if not files(token) else []
        check(files(token), f'docs/MAP.md: `{token}`: no such file{elsewhere(there)}')
    elif re.fullmatch(r"[\w'-]+", token):
        check(token in words or (top / token).is_dir(), f'docs/MAP.md: `{token}`: no file has that name in it')

for path, names in re.findall(r'`([^`\s]+/[^`\s]+)`((?: `[^`\s/]+`)+)', written):
    for name in re.findall(r'`([^`]+)`', names):
        there = any(has(file, name) for file in files(path))
        others = [] if there else [file.relative_to(top) for file in (top / 'crates').glob('*/specs/*.antt') if has(file, name)]
        check(there, f'docs/MAP.md: `{path}` has no {name}{elsewhere(others)}')

for link in re.findall(r'\]\(([^)#:]+)\)', text):
    check((top / 'docs' / link).exists(), f'docs/MAP.md: no {link}')

close()
