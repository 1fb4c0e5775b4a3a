"""docs/CLAIMS.md holds to the tree. Of what stands there in backquotes: a path under crates/ is there; a must-fail edit, as `crate/label`, is there, and
every edit of the tree is cited, and has what it changes once in its file; any other single name is defined in the tree, as a definition, theorem, function, type, field or case. A name that is
cited with a module, a crate or a record, in one of the page's orders, is defined in it: "`module` `name`, `name`", "`name` and `name` of `module`",
"`Record` (`field`)", `Record.field`; one in a column of definitions, in specs/. A theorem that follows a statement, "`Statement`: `module` `theorem`", has
it in its type. The type of an argument, as `m: &[u8]`, is its type in the calls of that line, and in the structs that arguments are handed on in.

Each module of specs/ stands in one of the tables of calls, promises and steps, with its lines. What the contracts of the public calls reach is in the
first two, and the first has nothing else; the sums are right, there and in README.md. The rules of tests/secrets.py are cited, each once. The links of
README.md and of the pages of docs/ lead to files, and in DECISIONS.md's table of forms the functions are in the files."""
import pathlib
import re

from closing import check, close

top = pathlib.Path(__file__).resolve().parent.parent
crates = top / 'crates'
text = (top / 'docs' / 'CLAIMS.md').read_text()


# ---- What the tree defines

def plain(file):
    """A source without its comments."""
    return re.sub(r'(^|\s)//.*' if file.suffix == '.rt' else r'(^|\s)--(\s.*|$)', r'\1', file.read_text(), flags=re.M)


code = {file: plain(file) for pattern in ('*/src/*.rt', '*/specs/*.antt', '*/proofs/**/*.antt') for file in sorted(crates.glob(pattern))}


def definitions(source, suffix):
    """The names that a source defines, with the fields and cases of its types."""
    if suffix == '.rt':
        bodies = ''.join(re.findall(r'\b(?:struct|enum) \w+ \{\n(.*?)^\}', source, re.M | re.S))
        return {*re.findall(r'\b(?:fn|struct|enum|const) (\w+)', source), *re.findall(r'^    (?:pub )?(\w+)', bodies, re.M)}
    return set(re.findall(r'^(?:  | +(?=pub ))?(?:(?:unfoldable|abbrev|pub|record|data) )*([^\s(){}:]+) [:({]', source, re.M))


defined = {file: definitions(source, file.suffix) for file, source in code.items()}
names = set().union(*defined.values())
records = {}  # of each record or data type, its fields or cases
for source in code.values():
    for name, body in re.findall(r'^pub (?:record|data) (\S+) .*\n((?:  .*\n)*)', source, re.M):
        records.setdefault(name, set()).update(re.findall(r'^  (?:pub )?(\S+) :', body, re.M))

# words of the language, of its kit and of the printout
WORDS = {'requires', 'usize', 'PLAN', 'COUNTS', 'REFUSED', '-'}


def module(path):
    """The file of a module that is cited as crate/specs/Name."""
    return next((f for f in (crates / f'{path}.antt', crates / f'{path}.rt', crates / path) if f.is_file()), None)


def within(place):
    """The names that are defined in a module, in a crate, or as fields or cases of a type."""
    if '/' in place:
        return defined.get(module(place), set())
    return set().union(records.get(place, set()), *(found for file, found in defined.items() if file.is_relative_to(crates / place)))


# ---- What is cited

edits = {f'{f.parent.parent.name}/{f.stem}' for f in crates.glob('*/must-fail/*.edit')}
cited = set()

for token in sorted(set(re.findall(r'`([^`\n]+)`', text))):
    if re.fullmatch(r'\w+/(specs|proofs|src|stdout)(/[\w/.]+)?', token):
        check(module(token), f'`{token}`: no such file under crates/')
    elif re.fullmatch(r'[a-z0-9_]+/[a-z0-9_]+', token):
        check(token in edits, f'`{token}`: no such must-fail edit')
        cited.add(token)
    elif re.fullmatch(r'\w+\.[\w-]+', token):
        check(token.split('.')[1] in within(token.split('.')[0]), f'`{token}`: no such field')
    elif re.fullmatch(r'[^\s/]+', token):
        check(token.lstrip('.') in names | WORDS or (crates / token).is_dir(), f'`{token}`: nothing of that name is defined')

check(edits, 'the tree has no must-fail edits')
for edit in sorted(crates.glob('*/must-fail/*.edit')):
    files = {}
    for key, value in re.findall(r'^(file|old|new): ?(.*)$', edit.read_text(), re.M):
        if key == 'file':
            file = edit.parent.parent / value
            files.setdefault(file, file.read_text() if file.is_file() else '')
        elif key == 'old':
            old = value
            check(files[file].count(old) == 1, f'{edit.relative_to(crates)}: {file.name} has {old!r} {files[file].count(old)} times')
        else:
            files[file] = files[file].replace(old, value, 1)
for edit in sorted(edits - cited):
    check(False, f'the must-fail edit {edit} is not cited')


def cites(place, listed):
    for name in re.findall(r'`([^`\s/]+)`', listed):
        check(name.lstrip('.') in within(place), f'`{name}` is not defined in `{place}`')


for place, listed in re.findall(r'(?=`([\w/.]+)` (`[^`\s/]+`(?:(?:,| and) `[^`\s/]+`(?! `| of `))*))', text):
    cites(place, listed)
for listed, places in re.findall(r'((?:`[^`\s/]+`(?:,| and) )*`[^`\s/]+`) of (`[\w/.]+`(?:(?:,| and) `[\w/.]+`(?! `| of `))*)', text):
    for place in re.findall(r'`(.+?)`', places):
        cites(place, listed)
for place, listed in re.findall(r'`([A-Z]\w+)` \(((?:`[\w-]+`|[^()`])+)\)', text):
    cites(place, listed)
for statement, path, theorem in re.findall(r'`([A-Z]\w+)`: `(\w+/proofs/\w+)` `([^`]+)`', text):
    said = re.search(rf'^ *pub {re.escape(theorem)} : (.*(?:\n    .*)*)', code.get(module(path), ''), re.M)
    check(said and re.search(rf'\b{statement}\b', said[1]), f'`{theorem}` of `{path}` does not say `{statement}`')
for line in re.findall(r'.*`\w+: [^`]+`.*', text):
    for crate, call in re.findall(r'`(\w+)` `(\w+)`', line):
        source = re.sub(r"<'a>|'a ", '', code.get(crates / crate / 'src' / 'lib.rt', ''))
        head = re.search(rf'\bfn {call}\((.*?)\n\)|^pub struct {call} \{{(.*?)\n\}}', source, re.M | re.S)
        for argument in re.findall(r'`(\w+: [^`]+)`', line):
            check(head and f'{argument},' in (head[1] or head[2]), f'`{crate}` `{call}` has no argument {argument}')
in_specs = set().union(*(found for file, found in defined.items() if file.parent.name == 'specs'))
column = ''
for line in text.splitlines():
    cells = line.replace(' | | ', ' |  | ').split(' | ')
    column = cells[1] if cells[0] == '| sentence' else column
    for name in re.findall(r'(?<!of )`(\w+)`(?! `)', cells[1]) if line.startswith('| ') and column == 'definition' else []:
        check(name in in_specs | WORDS, f'`{name}` stands as a definition, and no module of specs/ has it')

rules = re.search(r'^RULES = \[(.*)\]', (top / 'tests' / 'secrets.py').read_text(), re.M)[1].split(', ')
stated = re.findall(r'\(\*(\w+)\*\)', text)
check(sorted(rules) == sorted(stated), f'the rules of tests/secrets.py are {rules}, and {stated} are cited')


# ---- What must be believed: calls, promises, steps

public = re.findall(r'`(\w+)` `(\w+)`', re.search(r'^The public calls are .*|\Z', text, re.M)[0])
for call in re.findall(r'extern "C" fn (\w+)', code[crates / 'vadivuzhen' / 'src' / 'lib.rt']):
    check(('vadivuzhen', call) in public, f'{call} is not among the public calls')


def brings(source):
    """What a source has from modules of the repository's specs/: each name with its module."""
    found = re.findall(r'^(?:ghost )?use Rattle\.(\w+)\.specs\.(?!declared)(\w+)(?: as (\w+)|\.\{(.*)\})', source, re.M)
    return {name.split(' as ')[-1]: f'{crate}/specs/{file}' for crate, file, whole, some in found if (crates / crate).is_dir() for name in [whole, *some.split(', ')] if name}


reached, ahead = set(), []
for crate, call in public:
    source = code.get(crates / crate / 'src' / 'lib.rt', '')
    contract = re.search(rf'\bfn {call}\(.*?^ *\{{$|\Z', source, re.M | re.S)[0]
    check(contract, f'there is no call {call} in {crate}')
    ahead += [path for name, path in brings(source).items() if re.search(rf'(?<![\w-]){re.escape(name)}(?![\w-])', contract)]
while ahead:
    path = ahead.pop()
    if path not in reached:
        reached.add(path)
        ahead += brings(code[module(path)]).values()

modules = {f'{file.parent.parent.name}/specs/{file.stem}': len(file.read_text().splitlines()) for file in crates.glob('*/specs/*.antt') if file.stem != 'Lib'}
tables = {}
for name in ('Calls', 'Promises', 'Steps'):
    table = re.search(rf'^### {name}: .*?(?=^##|\Z)|\Z', text, re.M | re.S)[0]
    rows = [(path, int(lines)) for path, lines in re.findall(r'^\| `(\w+/specs/\w+)` \| (\d+) \|', table, re.M)]
    for path, lines in rows:
        check(lines == modules.get(path), f'{path}: {lines} lines given, {modules.get(path)} there')
        check(name == 'Promises' or (name == 'Calls') == (path in reached), f'{path} is under {name}, and public calls {"cite" if path in reached else "do not cite"} it')
    total = sum(lines for _, lines in rows)
    check(table.startswith(f'### {name}: {total:,} lines\n'), f'{name} have {total:,} lines')
    said = f'some {round(total, -2):,} lines'
    check(name == 'Steps' or said in (top / 'README.md').read_text(), f'README.md: {name} have {said}')
    tables[name] = [path for path, _ in rows]
for path in sorted(modules):
    times = sum(tables.values(), []).count(path)
    check(times == 1, f'{path} stands {times} times in the tables of calls, promises and steps')

planning = [path for path in tables['Calls'] if re.match('greedy|exchange', path) and path != 'exchange/specs/Lent']
full = [line for path in planning if module(path) for line in module(path).read_text().splitlines()]
dense = [line for line in full if line.strip() and not line.startswith('use ')]
bare = [line for line in dense if not line.strip().startswith('--')]
due = f'have {len(full)} lines; without imports and blank lines {len(dense)}, without comments too {len(bare)}.'
check(due in text, f'the {len(planning)} modules of planning {due}')


# ---- Links, and the forms of DECISIONS.md

for page in ('README.md', 'docs/DECISIONS.md', 'docs/CLAIMS.md', 'docs/FORMAT.md'):
    for link in re.findall(r'\]\(([^)#:]+)\)', (top / page).read_text()):
        check((top / page).parent.joinpath(link).exists(), f'{page}: no {link}')

forms = re.search(r'\| place \| form \| file \| function \|\n.*?\n\n', (top / 'docs' / 'DECISIONS.md').read_text(), re.S)
rows = [row.split(' | ') for row in forms.group(0).splitlines()[2:] if row] if forms else []
check(len(rows) == 9, f'DECISIONS.md has {len(rows)} forms, document 01 nine')
for place, form, files, functions in rows:
    if '(02)' not in place:
        source = ' '.join((top / file).read_text() for file in re.findall(r'crates/\w+/src/lib\.rt', files))
        for name in re.findall(r'`(\w+)`', functions):
            check(re.search(rf'(?:fn|const|impl) {name}\b', source), f'DECISIONS.md: {files} has no {name}')

close()
