"""No file names a path of a machine. No line of a contract has more than 150 characters, and no line of a definition or of a proof more than 250 (that the
sources are in the formatter's layout is rt ci's to say). Where subsets are counted and numbered, nothing is divided,
and nothing walks."""
import pathlib
import re
import subprocess

from closing import check, close

top = pathlib.Path(__file__).resolve().parent.parent

tracked = subprocess.run(['git', 'ls-files'], cwd=top, capture_output=True, text=True).stdout.split()
check(tracked, 'git lists no files')
paths = re.compile(r'(?<![\w.])/(?:home|root|work|tmp|opt|usr|var|mnt|srv|Users)(?:/|(?=[\s`\'"),;]))')
for name in tracked:
    file = top / name
    if file.is_file() and name != 'tests/layout.py':
        text = re.sub(r'^#!.*', '', file.read_bytes().decode('utf-8', 'replace'))
        found = paths.search(text)
        check(not found, f'{name} names a path of a machine: {found and found.group(0)}')


def contract_lines(text):
    """The lines of the `requires` and `ensures` clauses, each with its number: from the word to the brace that closes the clause."""
    depth, inside = 0, False
    for number, line in enumerate(text.splitlines(), 1):
        inside = inside or bool(re.match(r'\s*(requires|ensures)\b', line))
        if inside:
            yield number, line
            depth += line.count('{') - line.count('}')
            inside = depth > 0 or '{' not in line


def too_long(lines, most):
    """The numbers of the lines with more than that many characters, and the length of the longest."""
    found = {number: len(line) for number, line in lines if len(line) > most}
    return f'{len(found)} of more than {most}, up to {max(found.values())} (line {max(found, key=found.get)})' if found else ''


for file in sorted((top / 'crates').glob('*/src/**/*.rt')):
    found = too_long(contract_lines(file.read_text()), 150)
    check(not found, f'{file.relative_to(top)}: lines of contracts: {found}')

for file in sorted([*(top / 'crates').glob('*/specs/**/*.antt'), *(top / 'crates').glob('*/proofs/**/*.antt')]):
    found = too_long(enumerate(file.read_text().splitlines(), 1), 250)
    check(not found, f'{file.relative_to(top)}: lines: {found}')

# "T and each triple's number come from it without dividing" (02, W-203): a contract can't say how. No division stands where subsets are counted and
# numbered, and elsewhere in planning none but by 2; the counts have one loop, which searches for a place, and the cursor has none and never goes on by
# itself, nor does a function of theirs call itself, so that no number is found by a walk.
planning = 'gates', 'entries', 'evaluation', 'choosing', 'clearing', 'rounds', 'resolution', 'validation', 'planner', 'buffers'
code = {crate: re.sub(r'//.*', '', (top / 'crates' / crate / 'src/lib.rt').read_text()) for crate in ('counting', 'cursor', *planning)}
for crate, text in code.items():
    signs = [sign for sign in re.findall(r'[/%] *\w*', text) if crate not in planning or sign != '/ 2']
    check('fn ' in text and not signs, f'{crate}: divides: {signs}')
loops = {crate: re.findall(r'\b(?:while|for|loop)\b.*', code[crate]) for crate in ('counting', 'cursor')}
check(loops == {'counting': ['for i in 0..n {'], 'cursor': []}, f'counting and cursor have the loops {loops}')
walks = re.findall(r'(?<!fn )\b(?:first|next)\(', code['cursor'])
check(not walks, f'cursor walks: {walks}')
for crate in 'counting', 'cursor':
    for function in re.split(r'^(?:pub )?fn ', code[crate], flags=re.M)[1:]:
        name = function.partition('(')[0]
        check(len(re.findall(rf'(?<![\w:]){name}\(', function)) == 1, f'{crate}: {name} calls itself')

close()
