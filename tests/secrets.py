"""Nothing secret decides what runs, and nothing but a gate raises the tally.

The compiler holds much of it: the fields of `Secret` and `Tally` are private to `gates`, so that a step can't look into a secret, compare it, use it as
an index or make one by hand, nor write a count. What types can't say is held here, by rules over the sources of `gates`, of the steps,
and of the cursor and the counts that they go by. The rules say what may stand there, and refuse all else; what they name (the interface of `gates`, the
drivers, the places where a table is indexed) is changed here first. Below them stand cheats: each is applied to a copy, and the compiler, or a rule
where the compiler takes it, must refuse it in the right words. Every rule has one."""
import concurrent.futures
import pathlib
import re
import shutil
import subprocess
import tempfile

from closing import check, close

top = pathlib.Path(__file__).resolve().parent.parent
STEPS = ['evaluation', 'choosing', 'clearing', 'rounds']
# What runs by public numbers alone: each with the crates whose functions it calls.
PUBLIC = {'counting': ['counting'], 'cursor': ['cursor', 'counting']}
CRATES = ['gates', *PUBLIC, *STEPS]

# All that `gates` has. What takes a secret or a lent table gives a secret, or puts one into a table that is lent; only gates raise the tally; where
# an entry stands in a table is public.
INTERFACE = '''
pub struct Secret { value: u32, }
pub struct Tally { comparisons: u64, products: u64, rounds: u64, }
pub struct Counts { pub comparisons: u64, pub products: u64, pub rounds: u64, }
pub struct Gated<T> { pub value: T, pub tally: Tally, }
pub struct SecretPlaces { pub u: Secret, pub v: Secret, pub w: Secret, }
fn product_counted(t: Tally) -> Tally
pub fn product(a: Secret, b: Secret, t: Tally) -> Gated<Secret>
pub fn comparison(a: Secret, b: Secret, t: Tally) -> Gated<Secret>
pub fn pick(bit: Secret, a: Secret, b: Secret, t: Tally) -> Gated<Secret>
pub fn known(x: usize) -> Secret
pub fn sum(a: Secret, b: Secret) -> Secret
pub fn demux_readout(p: usize, choice: SecretPlaces) -> Secret
pub fn load<T: Copy + Into<u32>>(table: &[T], at: usize) -> Secret
pub fn store_u32(table: &mut [u32], at: usize, x: Secret)
pub fn nothing_done() -> Tally
pub fn begin_round(t: Tally) -> Tally
pub fn counts_of(t: Tally) -> Counts
'''.split('\n')[1:-1]

# The operations of each gate, in their order, and of what needs no gate: none does more than its own.
OPERATIONS = {
    'product_counted': '+', 'product': '*', 'comparison': '+ <', 'pick': '- * +', 'sum': '+', 'demux_readout': '== | == | == -', 'begin_round': '+',
    'known': '', 'load': '', 'store_u32': '', 'nothing_done': '', 'counts_of': '',
}

# What they call: a gate the counting of a product, and what looks an entry up the widening of it to 32 bits.
CALLS = {'product': ['product_counted(t)'], 'pick': ['product_counted(t)'], 'load': ['.into(']}

# The functions that hold a lent table: all others compute, and take secrets by value. m, w, weights and choices are secret; s is the shuffle, and table
# the constant one of the counts.
DRIVERS = {
    'counting': '''
pub fn triples(table: &[u32], m: usize) -> usize
pub fn twos(table: &[u32], m: usize) -> usize
fn of_size(table: &[u32], size: usize, m: usize) -> usize
pub fn begin_below(table: &[u32], size: usize, n: usize, p: usize) -> usize
pub fn lowest(table: &[u32], size: usize, n: usize, k: usize) -> usize
''',
    'cursor': '''
fn number_of_two(table: &[u32], n: usize, u: usize, v: usize) -> usize
fn two_at(table: &[u32], n: usize, k: usize) -> Places
fn triple_at(table: &[u32], n: usize, k: usize) -> Places
''',
    'evaluation': '''
fn edge(n: usize, m: &[u8], w: &[u16], i: usize, j: usize) -> EdgeEntries
fn weight_at(n: usize, m: &[u8], w: &[u16], s: &[u16], p: Places, t: Tally) -> Gated<Secret>
fn evaluated(n: usize, m: &[u8], w: &[u16], s: &[u16], weights: &mut [u32], t: Tally) -> Tally
pub fn evaluate(n: usize, m: &[u8], w: &[u16], s: &[u16], weights: &mut [u32], tally: &mut Tally)
''',
    'choosing': '''
fn choose_part(n: usize, weights: &[u32], first: usize, p: Places, t: Tally) -> Gated<Won>
fn choose_halves(n: usize, weights: &[u32], first: usize, p: Places, t: Tally) -> Gated<Won>
fn choice(n: usize, floor: u32, weights: &[u32], t: Tally) -> Gated<Chosen>
fn chosen_in_round(n: usize, floor: u32, weights: &[u32], choices: &mut [u32], k: usize, t: Tally) -> Gated<SecretPlaces>
pub fn choose(n: usize, floor: u32, weights: &[u32], choices: &mut [u32], k: usize, tally: &mut Tally) -> SecretPlaces
''',
    'clearing': '''
fn all_cleared(n: usize, weights: &mut [u32], choice: SecretPlaces, t: Tally) -> Tally
fn cleared(n: usize, weights: &mut [u32], choice: SecretPlaces, left: usize, t: Tally) -> Tally
pub fn clear(n: usize, weights: &mut [u32], choice: SecretPlaces, left: usize, tally: &mut Tally)
''',
    'rounds': '''
pub fn all_rounds(n: usize, floor: u32, weights: &mut [u32], choices: &mut [u32], tally: &mut Tally)
''',
}
DRIVERS = {crate: headers.split('\n')[1:-1] for crate, headers in DRIVERS.items()}
LONGEST = 20  # lines of a driver's body

# The only constant table, of entries that all know.
CONSTANTS = {'counting': ['TRIPLES']}

# The only brackets in the steps and in what they go by: the shuffle's entries and the table's, which all know, and the halves that are lent on.
BRACKETS = {
    ('counting', 'triples'): ['table[m]'],
    **{('cursor', name): ['&[u32]'] for name in ('count', 'number_of', 'at')},  # the constant table, lent on
    ('evaluation', 'weight_at'): ['s[u]', 's[v]', 's[x]'],
    ('choosing', 'choose_halves'): ['&weights[..half]', '&weights[half..]'],
}

# What may change: a loop's cursor and tally. And the only loops: over the places of a table that is lent, or over n places.
CHANGING = ['p', 'tally']
LOOP = r'\bfor ([ik]) in 0\.\.(?:\w+\.len\(\)|n) \{'

# What planning does between its checks and its answer.
PLANNED = {
    'steps': '''
    let mut tally = gates::nothing_done();
    evaluation::evaluate(n, m, w, s, weights, &mut tally);
    rounds::all_rounds(n, floor, weights, choices, &mut tally);
    tally
''',
    'make': '''
    let all = cursor::count(n);
    let rounds = n / 2;
    let tally = steps(
        n,
        floor,
        m,
        w,
        s,
        &mut weights[..all],
        &mut choices[..rounds],
    );
    let resolved = resolution::resolve(
        n,
        m,
        w,
        s,
        &choices[..rounds],
        &mut donors[..n],
        &mut recipients[..n],
    );
    let plan = Planned {
        weight: resolved.weight as u64,
        cycles: resolved.cycles,
        tally: gates::counts_of(tally),
    };
    let records = resolved.records;
    Work { plan, records }
''',
}


class Function:
    def __init__(self, header, name, params, result, body):
        self.header, self.name, self.result, self.body = header, name, result, body
        self.params = dict(param.split(': ', 1) for param in params)

    def tables(self):
        """The lent tables that it takes."""
        return [name for name, kind in self.params.items() if '[' in kind]

    def calls(self):
        """What it calls, and with which arguments."""
        for found in re.finditer(r'(?<![\w.:])((?:\w+::)*\w+)\(', self.body):
            if found[1] not in ('if', 'while', 'return'):
                yield found[1], split(self.body, found.end() - 1)[0]

    def statements(self):
        """The calls whose results are let go."""
        for found in re.finditer(r'[;{}]\s*((?:\w+::)*\w+)\(', '{' + self.body):
            if self.body[split(self.body, found.end() - 2)[1] + 1:].lstrip().startswith(';') and found[1] not in ('if', 'while', 'return'):
                yield found[1]

    def blocks(self):
        """The blocks of its `if`s, and of an `else`."""
        return [self.body[found.end():split(self.body, found.end() - 1)[1]] for found in re.finditer(r'\b(?:if|else)\b[^{]*\{', self.body)]

    def paths(self):
        """Its body by each way through it: an `if` whose block returns, or what comes after."""
        found = [(found.end(), split(self.body, found.end() - 1)[1]) for found in re.finditer(r'\bif\b[^{]*\{', self.body)]
        without = [self.body[:opens] for opens, _ in found] + [self.body]
        for opens, closes in reversed(found):
            without = [part[:opens] + part[closes:] if len(part) > closes else part for part in without]
        return [part + self.body[opens:closes] for part, (opens, closes) in zip(without, found)] + [without[-1]]


def split(text, at):
    """What stands, with commas between, in the bracket that opens at `at`; and where it closes."""
    closing, begun, found = [], at + 1, []
    for k in range(at, len(text)):
        if text[k] in '([{':
            closing.append(')]}'['([{'.index(text[k])])
        elif text[k] in ')]}' and text[k] != closing.pop():
            break
        if not closing or len(closing) == 1 and text[k] == ',':
            found.append(' '.join(text[begun:k].split()))
            begun = k + 1
        if not closing:
            return [part for part in found if part], k
    raise ValueError('brackets that do not match')


def whole(clause):
    """Is this a clause, or an import of definitions, and nothing else?"""
    if clause.startswith('ghost use'):
        return re.fullmatch(r'ghost use [^;{}]*(\{[^;{}]*\})?;', clause)
    opens = re.match(r'(requires|ensures)( \w+)? \{', clause)
    try:
        return opens and not re.search(r'\{-|-\}|--', clause) and split(clause, opens.end() - 1)[1] == len(clause) - 1
    except ValueError:
        return False


def joined(text):
    """The text with each clause on one line: what a clause goes on with, while its bracket is open, stands eight spaces in."""
    lines = []
    for line in text.splitlines():
        if lines and re.match(r'    (requires|ensures)\b', lines[-1]) and lines[-1].count('{') > lines[-1].count('}') and line.startswith(' ' * 8):
            lines[-1] += ' ' + line.strip()
        else:
            lines.append(line)
    return '\n'.join(lines)


class Source:
    """A crate's source without comments and contracts: its uses, its structs and its functions by name, and whatever else stands there. A struct or a
    function with a type parameter is one only where it is listed."""

    def __init__(self, text, listed=()):
        self.listed = listed
        text = self.raw = joined(text)
        self.clauses = [line.strip() for line in text.splitlines() if re.match(r'\s*(ghost use|requires|ensures)\b', line)]
        rest = '\n'.join(re.sub(r'//.*', '', line) for line in text.splitlines() if line.strip() not in self.clauses)
        # what a crate says of how it is checked, and that its plain structs may be copied
        rest = re.sub(r'^#(!\[tactic\(auto\)\]|\[derive\(Clone, Copy\)\]|\[cycle\(\w+\)\])$', '', rest, flags=re.M)
        self.uses = re.findall(r'^use ([^;]*);', rest, re.M)
        rest = re.sub(r'^use [^;]*;', '', rest, flags=re.M)
        self.structs = {}
        rest = re.sub(r'^pub struct (\w+)(<[^{}]*>)? \{[^{}]*\}', self.struct, rest, flags=re.M)
        table = r'^const (\w+): \[u32; 201\] = \[[\d\s,]*\];'
        self.tables = re.findall(table, rest, re.M)
        rest = re.sub(table, '', rest, flags=re.M)
        self.functions = {}
        try:
            self.rest = self.parsed(rest)
        except ValueError as why:
            self.rest = str(why)

    def struct(self, found):
        """Takes a struct out, and gives what is left."""
        struct = ' '.join(found[0].split())
        if found[2] and struct not in self.listed:
            return found[0]
        self.structs[found[1]] = struct
        return ''

    def parsed(self, rest):
        """Takes the functions out, and gives what is left."""
        while found := re.search(r'^(pub )?fn (\w+)(<[^()]*>)?\(', rest, re.M):
            params, end = split(rest, found.end() - 1)
            result = re.match(r'(?:\s*-> (Gated<\w+>|\w+|\[u32; 201\]))?\s*\{', rest[end + 1:])
            if not result:
                break
            opens = end + result.end()
            _, closes = split(rest, opens)
            header = f'{found[1] or ""}fn {found[2]}{found[3] or ""}({", ".join(params)})' + (f' -> {result[1]}' if result[1] else '')
            if found[3] and header not in self.listed:
                break
            self.functions[found[2]] = Function(header, found[2], params, result[1], rest[opens + 1:closes])
            rest = rest[:found.start()] + rest[closes + 1:]
        return ' '.join(rest.split())

    def drivers(self, crate):
        return [f for f in self.functions.values() if f.header in DRIVERS[crate]]


# ## The rules. Each takes the sources by crate, and gives a line for each thing that is wrong.

def plain(sources):
    """A source has uses of gates and the cursor, structs and functions, of constant tables the one that is listed, and nothing else; a clause has nothing
    after it; a body has `let`, `if`, `return`, `for` over places alone, and calls by name. A name is bound once, a number apart that becomes a secret; no
    value with a tally in it is copied or let go, and none is made by hand but what a step ends with, of gates' results."""
    for crate in CRATES:
        source = sources[crate]
        if source.rest:
            yield f'{crate}: has more than uses, structs and functions: {source.rest[:40]}'
        if source.tables != CONSTANTS.get(crate, []):
            yield f'{crate}: has the constant tables {source.tables}'
        for use in source.uses:
            if not re.fullmatch(r'(gates|cursor)::(\w+|\{\w+(, \w+)*\})', use):
                yield f'{crate}: uses {use}'
        for clause in source.clauses:
            if not whole(clause):
                yield f'{crate}: a clause has more on its line, or goes on: {clause[:30]}'
        for line in source.raw.splitlines():
            if line.strip() not in source.clauses:
                for sign in re.findall(r'/\*|"|\'', line.split('//')[0]):
                    yield f'{crate}: has {sign}'
        for f in source.functions.values():
            # a gate has no loop at all: it knows the secrets, and could count by one
            body = f.body if crate == 'gates' else re.sub(LOOP, '{', f.body)
            for word in re.findall(r'\b(?:match|for|while|loop|break|continue|fn|use|mod|impl|const|type|struct|unsafe)\b|::<', body):
                yield f'{crate}: {f.name} has {word}'
            for call in re.findall(r'\)\s*\(|\)\s*\.', f.body):
                yield f'{crate}: {f.name} calls, or takes a field, by {call}'
            bound = list(f.params)
            for place in re.findall(LOOP, f.body):
                if place in bound:
                    yield f'{crate}: {f.name} binds {place} again'
                bound.append(place)
            for changing, name, kind, value in re.findall(r'\blet (mut )?(\w+)(: usize|: &\[u32\])? = ([^;]*);', f.body):
                if name in bound and value not in (f'gates::known({name})', f'gates::known({name} as usize)'):
                    yield f'{crate}: {f.name} binds {name} again'
                if changing and name not in CHANGING:
                    yield f'{crate}: {f.name} changes {name}'
                if re.fullmatch(r'[a-z_]\w*', value) and (name, value) != ('tally', 't'):
                    yield f'{crate}: {f.name} copies {value}'
                bound.append(name)
            if len(re.findall(rf'\blet\b|{LOOP}', f.body)) != len(bound) - len(f.params):
                yield f'{crate}: {f.name} binds by a pattern'
            for made in re.finditer(r'\b(?:Gated|Tally)\b[^{;,()]*\{', f.body) if crate != 'gates' else ():
                last = not f.body[split(f.body, made.end() - 1)[1] + 1:].strip()
                if made[0] != 'Gated {' or f.result == 'Gated<Secret>' or not last:
                    yield f'{crate}: {f.name} makes what only a gate gives'
            for callee in f.statements():
                where, _, name = callee.rpartition('::')
                called = sources[where or crate].functions.get(name) if (where or crate) in sources else None
                if not called or called.result:
                    yield f'{crate}: {f.name} lets go what {callee} gives'


def interface(sources):
    """`gates` has what is listed, and nothing else."""
    gates = sources['gates']
    has = list(gates.structs.values()) + [f.header for f in gates.functions.values()]
    for line in sorted(set(has) ^ set(INTERFACE)):
        yield f'gates: {"has" if line in has else "has no"} {line}'


def straight(sources):
    """What runs in a gate is the same whatever its secrets are: its own operations, no branch, no loop, no modulus, no entry but that of a public place."""
    for f in sources['gates'].functions.values():
        for word in re.findall(r'\b(?:if|else|for|while|loop|return)\b|&&|\|\||%|/', f.body):
            yield f'gates: {f.name} is not straight-line code ({word})'
        made = ' '.join(re.findall(r'[=!<>]=|[-+*<>^|]', f.body))
        if made != OPERATIONS.get(f.name, ''):
            yield f'gates: {f.name} does {made}'
        calls = [f'{name}({", ".join(given)})' for name, given in f.calls()] + re.findall(r'\.\w+\(', f.body)
        if calls != CALLS.get(f.name, []):
            yield f'gates: {f.name} calls {", ".join(calls)}'
        if re.findall(r'\w*\[[^\]]*\]', f.body) != (['table[at]'] if f.tables() else []):
            yield f'gates: {f.name} has another entry than table[at]'


def by_value(sources):
    """The drivers are those that are listed, and short; no other function takes a lent table or a reference, none gives a table but the constant one, and
    no struct holds one. No struct of a step holds a tally: it gives it in `Gated`."""
    for crate in [*STEPS, *PUBLIC]:
        source = sources[crate]
        headers = [f.header for f in source.functions.values()]
        for header in DRIVERS.get(crate, []):
            if header not in headers:
                yield f'{crate}: has no {header}'
        for f in source.functions.values():
            driver = f.header in DRIVERS.get(crate, [])
            if not driver and any(re.search(r'[&\[]', kind) for kind in f.params.values()):
                yield f'{crate}: {f.name} takes a table or a reference, and is no driver'
            if '[' in (f.result or '') and (crate, f.name) != ('counting', 'table'):
                yield f'{crate}: {f.name} gives a table'
            if driver and len([line for line in f.body.splitlines() if line.strip()]) > LONGEST:
                yield f'{crate}: {f.name} is not short'
            for name, kind in f.params.items():
                if re.search(r'Tally|Gated', kind) and (name, kind) not in (('t', 'Tally'), ('tally', '&mut Tally')):
                    yield f'{crate}: {f.name} takes a tally by the name {name}'
        for name, struct in source.structs.items():
            if re.search(r'[&\[]', struct):
                yield f'{crate}: {name} holds a table or a reference'
            if re.search(r'(?<! tally): Tally', struct):
                yield f'{crate}: {name} holds a tally by another name'
            elif re.search(r'\b(?:Tally|Gated)\b', struct):
                yield f'{crate}: {name} holds a tally'


def unread(sources):
    """No entry of a lent table is read or written in a step but by `gates`; the shuffle's and a constant table's are public."""
    for crate in [*STEPS, *PUBLIC]:
        for f in sources[crate].functions.values():
            body = f.body
            for bracket in BRACKETS.get((crate, f.name), []):
                if body.count(bracket) != 1:
                    yield f'{crate}: {f.name} has {bracket} {body.count(bracket)} times'
                body = re.sub(r'(?<![\w.])' + re.escape(bracket), '', body)
            for entry in re.findall(r'[\w.)\]]*\[[^\]]*\]?', body):
                yield f'{crate}: {f.name} has {entry}'


def named(sources):
    """A lent table goes to `gates`, or on under its own name; of what is in it a step knows the length."""
    for crate in [*STEPS, *PUBLIC]:
        source = sources[crate]
        for f in source.drivers(crate):
            for table in f.tables():
                allowed = len(re.findall(rf'(?<![\w.]){table}\.len\(\)', f.body)) + sum(
                    f.body.count(bracket) for bracket in BRACKETS.get((crate, f.name), []) if bracket.startswith(f'{table}['))
                for callee, given in f.calls():
                    where, _, name = callee.rpartition('::')
                    target = sources[where or crate].functions.get(name) if (where or crate) in sources else None
                    for param, argument in zip(target.params if target else [], given):
                        if re.fullmatch(rf'(&(mut )?)?{table}(\[[^\]]*\])?', argument):
                            if param == table or where == 'gates' and param == 'table' and table != 's':
                                allowed += 1
                            else:
                                yield f'{crate}: {f.name} gives {table} to {name} for {param}'
                if len(re.findall(rf'(?<![\w.]){table}\b(?!: )', f.body)) != allowed:
                    yield f'{crate}: {f.name} has {table} elsewhere than in a call or its length'


def within(sources):
    """A step calls functions of gates, of the cursor and of steps, by their names, the cursor its own and the counts', and these their own; of a table a step
    asks the length."""
    for crate in [*STEPS, *PUBLIC]:
        for f in sources[crate].functions.values():
            for callee, _ in f.calls():
                where, _, name = callee.rpartition('::')
                if (where or crate) not in PUBLIC.get(crate, ['gates', 'cursor', *STEPS]) or name not in sources[where or crate].functions:
                    yield f'{crate}: {f.name} calls {callee}'
            for method in re.findall(r'\.(\w+\([^)]*\))', f.body):
                if method != 'len()':
                    yield f'{crate}: {f.name} calls {method}'


def readout(sources):
    """Only clearing asks whether a place is in the choice: each place of a subset, once."""
    due = [('clearing', 'weight_after', f'p.{place}, choice') for place in 'uvw']
    asked = [(crate, f.name, ', '.join(given)) for crate in STEPS for f in sources[crate].functions.values() for callee, given in f.calls() if callee.endswith('demux_readout')]
    for crate, name, given in asked:
        if (crate, name, given) not in due or asked.count((crate, name, given)) != 1:
            yield f'{crate}: {name} asks demux_readout({given})'


def halved(sources):
    """"halves the part of the table under study": any other cut has the same winner and the same tally."""
    body = sources['choosing'].functions['choose_halves'].body
    if re.findall(r'\bhalf = ([^;]*);', body) != ['weights.len() / 2']:
        yield 'choosing: choose_halves does not halve'


def threaded(sources):
    """Each tally goes on to the next gate or step, once: no gate runs uncounted. None is begun or looked at in a step."""
    tallied = [name for crate in CRATES for name, struct in sources[crate].structs.items() if ' tally: Tally,' in struct]
    for crate in STEPS:
        for f in sources[crate].functions.values():
            for callee, _ in f.calls():
                if callee in ('gates::nothing_done', 'gates::counts_of'):
                    yield f'{crate}: {f.name} calls {callee}'
            for block in f.blocks():
                if not re.search(r'\breturn\b[^;]*;\s*$', block):
                    yield f'{crate}: {f.name} has an if that does not return'
            if 'let mut tally' in f.body and [len(re.findall(use, f.body)) for use in (r'[(,]\s*tally\s*[,)]', r'(?<!mut )\btally = ')] != [1, 1]:
                yield f'{crate}: {f.name} goes on with its tally more than once in a turn'
            lent = [len(re.findall(use, f.body)) for use in (r'\*tally\b', r'\blet old = \*tally;', r'\*tally = ')]
            if lent not in ([0, 0, 0], [2, 1, 1]):
                yield f'{crate}: {f.name} takes the lent tally out more than once'
            for path in f.paths():
                uses = {'t': r'(?<![\w.:])t\b(?![.:(])'} if f.params.get('t') == 'Tally' else {}
                for name, source in re.findall(r'\blet (\w+) = (\*tally|\w+\.tally);', path):
                    uses[name] = rf'(?<![\w.:*]){name}\b(?!:)(?! =)'
                for name, callee in re.findall(r'\blet (\w+) = ((?:\w+::)*\w+)\(', path):
                    where, _, called = callee.rpartition('::')
                    called = sources[where or crate].functions.get(called) if (where or crate) in sources else None
                    if called and (called.result or '').split('<')[0] in tallied:
                        uses[name] = rf'(?<![\w.:]){name}\.tally\b|\breturn {name};|\n\s*{name}\s*$'
                    if called and called.result == 'Tally':
                        uses[name] = rf'(?<![\w.:]){name}\b(?! =)'
                turns = [path[turn.end():split(path, turn.end() - 1)[1]] for turn in re.finditer(r'\b(?:while|for)\b[^{]*\{', path)]
                for name, use in uses.items():
                    used = len(re.findall(use, path))
                    if used != 1:
                        yield f'{crate}: {f.name} goes on with the tally of {name} {used} times'
                    if any(re.search(use, turn) and f'let {name} = ' not in turn for turn in turns):
                        yield f'{crate}: {f.name} goes on with the tally of {name} in each turn'


def planned(sources):
    """Planning makes one tally, lends it to evaluation and the rounds, and has its counts in the result; it runs no step elsewhere."""
    planner = sources['planner']
    for name, body in PLANNED.items():
        if planner.functions[name].body.split() != body.split():
            yield f'planner: {name} is another'
    code = ' '.join(re.sub(r'(//|ghost use|requires|ensures).*', '', line) for line in planner.raw.splitlines())
    if re.search(r'\bmod\b|\buse [^;]* as\b', code):
        yield 'planner: has a module or a name of its own'
    if len(re.findall(r'\b(?:gates|evaluation|choosing|clearing|rounds)::[a-z]', code)) != 4 or len(re.findall(r'\b(?:steps|make)\(', code)) != 4:
        yield 'planner: runs a gate or a step elsewhere'


RULES = [plain, interface, straight, by_value, unread, named, within, readout, halved, threaded, planned]


def faults(texts):
    """What the rules say; where a source can't be read, what the first says of it."""
    sources = {crate: Source(text, INTERFACE if crate == 'gates' else ()) for crate, text in texts.items()}
    unreadable = any(sources[crate].rest for crate in CRATES)
    return [(rule, line) for rule in (RULES[:1] if unreadable else RULES) for line in rule(sources)]


# ## The tree

texts = {crate: (top / 'crates' / crate / 'src/lib.rt').read_text() for crate in CRATES + ['planner']}
found = faults(texts)
for rule in RULES:
    lines = [line for by, line in found if by is rule]
    check(not lines, '; '.join(lines))
for crate in CRATES:
    files = [file.name for file in (top / 'crates' / crate / 'src').iterdir()]
    check(files == ['lib.rt'], f'{crate}: src has {files}')

# what else calls gates or steps: nothing
for file in sorted((top / 'crates').glob('*/src/*.rt')):
    if file.parent.parent.name not in CRATES + ['planner']:
        check(not re.search(r'\b(gates|evaluation|choosing|clearing|rounds)::(?!Counts\b)', file.read_text().replace('specs', '')), f'{file.parent.parent.name}: runs a gate or a step')

# ## Cheats: (the crate, what it does, the edits, who refuses it, the words). Who refuses it is the compiler, or a rule.

COMPILER = None
TWO = '    gates::product(there.value, sum, there.tally)\n}\n\n// The weight of the cycle a → b → c → a'
EDGE = '    let ab = edge(n, m, w, a, b);\n'
PICKED = '    let picked = bit.value as i64 * difference + b.value as i64;\n'
PRODUCT = '    let made = Secret {\n        value: a.value * b.value,\n'
TABLES = '// ## Lent tables'
ROUND = '        clearing::clear(n, weights, at, choices.len() - k - 1, tally);\n'
STORED = '    Gated {\n        value: chosen.value.at,\n        tally: chosen.tally,\n'
ENTRY = '    Secret {\n        value: table[at].into(),\n    }\n'
CHEATS = [
    # what the base proved before secrets were a type: a branch on a weight, a product counted by hand and never made, a choice read to skip work
    ('evaluation', 'a branch on a weight', [(TWO, '    if there.value.value == 0 {\n        return there;\n    }\n' + TWO)],
     COMPILER, 'error[private-field]: field `value` of struct `Secret` is private'),
    ('evaluation', 'a product that is counted by hand and not made', [(
        TWO, '    let counted = Tally {\n        comparisons: 0,\n        products: 2,\n        rounds: 0,\n    };\n    Gated {\n        value: sum,\n        tally: counted,\n    }\n' + TWO.split('\n', 1)[1],
    )], COMPILER, 'error[private-field]: field `comparisons` of struct `Tally` is private'),
    ('clearing', 'a choice that is looked at to skip work', [(
        '    if p.w == n {\n', '    if p.u == choice.u.value as usize {\n        return first;\n    }\n    if p.w == n {\n',
    )], COMPILER, 'error[private-field]: field `value` of struct `Secret` is private'),
    # other ways to look into a secret, or to write a count
    ('clearing', 'two secrets compared', [('    if p.w == n {\n', '    if gates::known(p.u) == choice.u {\n        return first;\n    }\n    if p.w == n {\n')],
     COMPILER, 'error[invalid-operand-type]'),
    ('clearing', 'a secret matched on', [('    if p.w == n {\n', '    match x {\n        0 => return first,\n        _ => {}\n    }\n    if p.w == n {\n')], COMPILER, 'error['),
    ('choosing', 'a secret made by hand', [('    let number = gates::known(number);\n', '    let number = Secret { value: 0 };\n')],
     COMPILER, 'error[private-field]: field `value` of struct `Secret` is private'),
    ('choosing', 'a secret for a place in a table', [('gates::load(weights, 0)', 'gates::load(weights, gates::known(0))')], COMPILER, 'error[mismatched-types]'),
    ('choosing', 'a secret cast to a number', [('    let next = cursor::next(n, p);\n', '    let seen = weight as usize;\n    let next = cursor::next(n, p);\n')],
     COMPILER, 'error[invalid-cast]'),
    ('choosing', 'a tally lowered', [(STORED, '    let mut tally = chosen.tally;\n    tally.products = 0;\n    Gated {\n        value: chosen.value.at,\n        tally: tally,\n')],
     COMPILER, 'error[private-field]: field `products` of struct `Tally` is private'),
    ('rounds', 'a method that opens', [('// A round for each entry', 'impl gates::Secret {\n    fn seen(self) -> u32 {\n        0\n    }\n}\n\n// A round for each entry')],
     COMPILER, 'error[invalid-impl-type]'),

    # what the compiler takes, by the rule that refuses it
    ('evaluation', 'a module', [('// An edge\'s entries', 'mod clearing {\n    pub fn zero(w: &[u16]) -> bool {\n        w[0] == 0\n    }\n}\n\n// An edge\'s entries')],
     plain, 'evaluation: has more than uses, structs and functions: mod clearing { pub fn zero(w: &[u16]) ->'),
    ('choosing', 'a method', [('// A part\'s winner, and', 'impl Best {\n    fn len(self) -> usize {\n        0\n    }\n}\n\n// A part\'s winner, and')],
     plain, 'choosing: has more than uses, structs and functions: impl Best { fn len(self) -> usize { 0 } '),
    ('evaluation', 'a function with a lifetime', [('// An edge\'s entries', 'fn peek<\'a>(w: &\'a [u16]) -> bool {\n    w[0] == 0\n}\n\n// An edge\'s entries')],
     plain, "evaluation: has more than uses, structs and functions: fn peek<'a>(w: &'a [u16]) -> bool { w[0]"),
    ('evaluation', 'a name for another crate', [('use cursor::Places;\n', 'use std::num as rounds;\nuse cursor::Places;\n')], plain, 'evaluation: uses std::num as rounds'),
    ('evaluation', 'a comment that hides code', [(EDGE, EDGE + '    if (/* // */ w[0]) == 0 {\n        return two(ab, ab, t);\n    }\n')], plain, 'evaluation: has /*'),
    ('evaluation', 'a string that hides code', [(EDGE, EDGE + '    if b"0//"[w[0] as usize] == 0 {\n        return two(ab, ab, t);\n    }\n')], plain, 'evaluation: has "'),
    ('evaluation', 'a match', [(EDGE, EDGE + '    match n {\n        0 => return two(ab, ab, t),\n        _ => {}\n    }\n')], plain, 'evaluation: weight_at has match'),
    ('evaluation', 'a call in brackets', [('        let weighed = weight_at(n, m, w, s, p, tally);\n', '        let weighed = (weight_at)(n, m, w, w, p, tally);\n')],
     plain, 'evaluation: evaluated calls, or takes a field, by )('),
    ('evaluation', 'a gate whose count is dropped on the spot', [('    let sum = gates::sum(ab.w, ba.w);\n', '    let sum = gates::product(ab.w, ba.w, t).value;\n')],
     plain, 'evaluation: two calls, or takes a field, by ).'),
    ('clearing', 'a pattern', [('    let first = gates::product(', '    let SecretPlaces { u, v, w } = choice;\n    let first = gates::product(')], plain, 'clearing: weight_after binds by a pattern'),

    ('evaluation', 'code behind a clause', [('ghost use Rattle.evaluation.specs.Preconditions.{Evaluating};\n', 'ghost use Rattle.evaluation.specs.Preconditions.{Evaluating}; fn evil(w: &[u16]) -> bool { w[0] == 0 }\n')],
     plain, 'evaluation: a clause has more on its line, or goes on: ghost use Rattle.evaluation.sp'),
    ('evaluation', 'code between the lines of a clause', [('    requires { Evaluating (up_to_three n) m.now w.now s.now weights.old t }\n', '    requires { Evaluating (up_to_three n) m.now w.now s.now weights.old t\n    }\n')],
     plain, 'evaluation: a clause has more on its line, or goes on: requires { Evaluating (up_to_t'),
    ('choosing', 'a constant', [('// A winner: its weight', 'const MOST: usize = 9;\n\n// A winner: its weight')],
     plain, 'choosing: has more than uses, structs and functions: const MOST: usize = 9;'),
    ('choosing', 'a constant table', [('// A winner: its weight', 'const MOST: [u32; 201] = [' + '0, ' * 201 + '];\n\n// A winner: its weight')], plain, "choosing: has the constant tables ['MOST']"),
    ('gates', 'a loop in a sum', [('        value: a.value + b.value,\n    }\n', '        value: a.value + b.value,\n    };\n    let n = b.value as usize;\n    for i in 0..n {}\n    made\n'), (
        '    Secret {\n        value: a.value + b.value,', '    let made = Secret {\n        value: a.value + b.value,')], plain, 'gates: sum has for'),
    ('gates', 'a place bound again', [(ENTRY, '    let at = at * 1;\n' + ENTRY)], plain, 'gates: load binds at again'),
    ('choosing', 'a half that changes', [('    let half = weights.len() / 2;\n', '    let mut half = weights.len() / 2;\n    half -= half - 1;\n')], plain, 'choosing: choose_halves changes half'),
    ('evaluation', 'a tally copied', [('    let sum = gates::sum(ab.w, ba.w);\n', '    let sum = gates::sum(ab.w, ba.w);\n    let kept = there;\n')], plain, 'evaluation: two copies there'),
    ('evaluation', 'a result made by hand', [('    let sum = gates::sum(ab.w, ba.w);\n', '    let sum = gates::sum(ab.w, ba.w);\n    let tally = there.tally;\n    let made = Gated {\n        value: sum,\n        tally: tally,\n    };\n')],
     plain, 'evaluation: two makes what only a gate gives'),
    ('evaluation', 'a result made by hand at the end', [(TWO, '    Gated {\n        value: sum,\n        tally: there.tally,\n    }\n' + TWO.split('\n', 1)[1])],
     plain, 'evaluation: two makes what only a gate gives'),
    ('choosing', 'a step\'s result made by hand on the way', [('    let joined = join(left.value.best', '    let kept = Gated {\n        value: left.value,\n        tally: left.tally,\n    };\n    let joined = join(left.value.best')],
     plain, 'choosing: choose_halves makes what only a gate gives'),
    ('evaluation', 'a type parameter', [('// An edge\'s entries', 'fn peek<T: Copy>(w: &[T]) -> usize {\n    w.len()\n}\n\n// An edge\'s entries')],
     plain, 'evaluation: has more than uses, structs and functions: fn peek<T: Copy>(w: &[T]) -> usize { w.l'),
    ('evaluation', 'a struct with a type parameter', [('// An edge\'s entries', '#[derive(Clone, Copy)]\npub struct Pair<T> {\n    pub first: T,\n}\n\n// An edge\'s entries')],
     plain, 'evaluation: has more than uses, structs and functions: pub struct Pair<T> { pub first: T, }'),
    ('evaluation', 'a call that names its type', [('gates::load(w, i * n + j)', 'gates::load::<u16>(w, i * n + j)')], plain, 'evaluation: edge has ::<'),
    ('evaluation', 'a loop over entries', [('    for i in 0..weights.len() {\n', '    for entry in w {\n        tally = t;\n    }\n    for i in 0..weights.len() {\n')], plain, 'evaluation: evaluated has for'),
    ('evaluation', 'a loop while', [('    for i in 0..weights.len() {\n', '    while n > n {\n        tally = t;\n    }\n    for i in 0..weights.len() {\n')], plain, 'evaluation: evaluated has while'),
    ('rounds', 'a loop that binds a name again', [('    for k in 0..choices.len() {\n', '    let k: usize = 0;\n    for k in 0..choices.len() {\n')], plain, 'rounds: all_rounds binds k again'),
    ('evaluation', 'a gate whose result is let go', [('    let sum = gates::sum(ab.w, ba.w);\n', '    let sum = gates::sum(ab.w, ba.w);\n    gates::product(ab.w, ba.w, t);\n')],
     plain, 'evaluation: two lets go what gates::product gives'),

    ('gates', 'a public field', [('pub struct Secret {\n    value', 'pub struct Secret {\n    pub value')], interface, 'gates: has pub struct Secret { pub value: u32, }'),
    ('gates', 'a public count', [('pub struct Tally {\n    comparisons', 'pub struct Tally {\n    pub comparisons')],
     interface, 'gates: has pub struct Tally { pub comparisons: u64, products: u64, rounds: u64, }'),
    ('gates', 'a function that opens a secret', [(TABLES, 'pub fn open(x: Secret) -> u32 {\n    x.value\n}\n\n' + TABLES)], interface, 'gates: has pub fn open(x: Secret) -> u32'),
    ('gates', 'a function that opens a table', [(TABLES, 'pub fn entry(table: &[u32], at: usize) -> u32 {\n    table[at]\n}\n\n' + TABLES)],
     interface, 'gates: has pub fn entry(table: &[u32], at: usize) -> u32'),
    ('gates', 'a secret for a place', [(TABLES, 'pub fn look_up(table: &[u32], at: Secret) -> Secret {\n    load(table, at.value as usize)\n}\n\n' + TABLES)],
     interface, 'gates: has pub fn look_up(table: &[u32], at: Secret) -> Secret'),
    ('gates', 'a gate that does not count', [(TABLES, 'pub fn less(a: Secret, b: Secret) -> Secret {\n    Secret {\n        value: (a.value < b.value) as u32,\n    }\n}\n\n' + TABLES)],
     interface, 'gates: has pub fn less(a: Secret, b: Secret) -> Secret'),
    ('gates', 'a count with no gate', [('// A round begins.', 'pub fn product_noted(t: Tally) -> Tally {\n    product_counted(t)\n}\n\n// A round begins.')],
     interface, 'gates: has pub fn product_noted(t: Tally) -> Tally'),
    ('gates', 'a tally made of numbers', [('// A round begins.', 'pub fn tally_of(c: Counts) -> Tally {\n    Tally {\n        comparisons: c.comparisons,\n        products: c.products,\n        rounds: c.rounds,\n    }\n}\n\n// A round begins.')],
     interface, 'gates: has pub fn tally_of(c: Counts) -> Tally'),

    ('gates', 'a pick by a branch', [(PICKED, '    let mut picked = b.value as i64;\n    if bit.value == 1 {\n        picked = difference + b.value as i64;\n    }\n')],
     straight, 'gates: pick is not straight-line code (if)'),
    ('gates', 'a product that takes as long as a secret is large', [(PRODUCT, '    let n = a.value as usize;\n    for i in 0..n {}\n' + PRODUCT)],
     straight, 'gates: product is not straight-line code (for)'),
    ('gates', 'a pick by a modulus', [(PICKED, '    let picked = (bit.value as i64 * difference + b.value as i64) % 4294967296;\n')], straight, 'gates: pick is not straight-line code (%)'),
    ('gates', 'a pick that calls', [('        value: picked as u32,\n', '        value: std::num::wrapping_add_u32(b.value, 0),\n')], straight, 'gates: pick calls product_counted(t), std::num::wrapping_add_u32(b.value, 0)'),
    ('gates', 'an entry of a secret place', [(ENTRY, '    let place: u32 = table[at].into();\n    Secret {\n        value: table[place as usize].into(),\n    }\n')],
     straight, 'gates: load has another entry than table[at]'),
    ('gates', 'a sum that calls', [('        value: a.value + b.value,\n', '        value: a.value + u32::from(b.value),\n')], straight, 'gates: sum calls u32::from(b.value)'),
    ('gates', 'a secret that is widened by a method', [(
        '    Secret {\n        value: a.value + b.value,\n', '    let widened: u32 = b.value.into();\n    Secret {\n        value: a.value + widened,\n')],
     straight, 'gates: sum calls .into('),
    ('gates', 'a comparison in a sum', [('        value: a.value + b.value,\n', '        value: a.value + b.value + (a.value < b.value) as u32,\n')], straight, 'gates: sum does + + <'),

    ('evaluation', 'a weight made of a table', [(
        'fn two(ab: EdgeEntries, ba: EdgeEntries, t: Tally) -> Gated<Secret>\n', 'fn two(ab: EdgeEntries, ba: EdgeEntries, w: &[u16], t: Tally) -> Gated<Secret>\n',
    ), ('return two(ab, ba, t);', 'return two(ab, ba, w, t);')], by_value, 'evaluation: two takes a table or a reference, and is no driver'),
    ('evaluation', 'a driver that all can call', [('fn edge(n: usize, m', 'pub fn edge(n: usize, m')],
     by_value, 'evaluation: has no fn edge(n: usize, m: &[u8], w: &[u16], i: usize, j: usize) -> EdgeEntries'),
    ('cursor', 'a cursor that looks at a table', [('// How many subsets there are', 'pub fn past(weights: &[u32], k: usize) -> bool {\n    weights[k] == 0\n}\n\n// How many subsets there are')],
     by_value, 'cursor: past takes a table or a reference, and is no driver'),
    ('counting', 'a count that looks at a table', [('// How many triples there are', 'pub fn past(weights: &[u32], k: usize) -> bool {\n    weights[k] == 0\n}\n\n// How many triples there are')],
     by_value, 'counting: past takes a table or a reference, and is no driver'),
    ('cursor', 'a cursor that gives a table', [('// How many subsets there are', 'pub fn entries() -> [u32; 201] {\n    counting::table()\n}\n\n// How many subsets there are')],
     by_value, 'cursor: entries gives a table'),
    ('cursor', 'a cursor that is lent a table', [('pub fn count(n: usize) -> usize\n', 'pub fn count(table: &[u32], n: usize) -> usize\n')],
     by_value, 'cursor: count takes a table or a reference, and is no driver'),
    ('choosing', 'a struct that holds an array', [('pub struct Chosen {\n', 'pub struct Held {\n    pub s: [u32; 1],\n}\n\n#[derive(Clone, Copy)]\npub struct Chosen {\n')], by_value, 'choosing: Held holds a table or a reference'),
    ('evaluation', 'a tally by another name', [('fn two(ab: EdgeEntries, ba: EdgeEntries, t: Tally) -> Gated<Secret>\n', 'fn two(ab: EdgeEntries, ba: EdgeEntries, c: Tally) -> Gated<Secret>\n'), (
        '    let there = gates::product(ab.m, ba.m, t);\n', '    let there = gates::product(ab.m, ba.m, c);\n')], by_value, 'evaluation: two takes a tally by the name c'),
    ('choosing', 'a struct with a tally by another name', [('pub struct Chosen {\n', 'pub struct Kept {\n    pub count: Tally,\n}\n\n#[derive(Clone, Copy)]\npub struct Chosen {\n')], by_value, 'choosing: Kept holds a tally by another name'),
    ('choosing', 'a struct with a tally of its own', [('pub struct Chosen {\n', 'pub struct Kept {\n    pub tally: Tally,\n}\n\n#[derive(Clone, Copy)]\npub struct Chosen {\n')], by_value, 'choosing: Kept holds a tally'),
    ('choosing', 'a struct with a tally in what it holds', [('pub struct Chosen {\n', 'pub struct Kept {\n    pub made: Gated<Secret>,\n}\n\n#[derive(Clone, Copy)]\npub struct Chosen {\n')],
     by_value, 'choosing: Kept holds a tally'),
    ('choosing', 'a tally in what is taken', [('// A subset\'s places, as secrets.', 'fn again(g: Gated<Secret>) -> Tally {\n    g.tally\n}\n\n// A subset\'s places, as secrets.')],
     by_value, 'choosing: again takes a tally by the name g'),
    ('rounds', 'a driver that grows', [(ROUND, ROUND + '        let none: usize = 0;\n' * LONGEST)], by_value, 'rounds: all_rounds is not short'),

    ('evaluation', 'an entry that is looked at', [(EDGE, EDGE + '    if w[a * n + b] == 0 {\n        return two(ab, ab, t);\n    }\n')], unread, 'evaluation: weight_at has w[a * n + b]'),
    ('evaluation', 'an entry of a part', [(EDGE, EDGE + '    if w[a..][0] == 0 {\n        return two(ab, ab, t);\n    }\n')], unread, 'evaluation: weight_at has w[a..]'),
    ('evaluation', 'an entry in brackets', [(EDGE, EDGE + '    if (w)[a] == 0 {\n        return two(ab, ab, t);\n    }\n')], unread, 'evaluation: weight_at has w)[a]'),
    ('choosing', 'a choice that is looked at once it is stored', [(STORED, '    let mut at = chosen.value.at;\n    if choices[k] == 0 {\n        at = chosen.value.at;\n    }\n    Gated {\n        value: at,\n        tally: chosen.tally,\n')],
     unread, 'choosing: chosen_in_round has choices[k]'),
    ('clearing', 'a secret stored to an array', [('    let first = gates::product(', '    let mut seen = [0u32; 1];\n    gates::store_u32(&mut seen, 0, choice.u);\n    let first = gates::product(')],
     unread, 'clearing: weight_after has [0u32; 1]'),
    ('counting', 'another entry of the table', [('    let others = m - 1;\n', '    let others = m - 1 + table[0] as usize;\n')], unread, 'counting: twos has table[0]'),
    ('evaluation', 'the shuffle read twice', [('    let c = s[x] as usize;\n', '    let c = s[x] as usize + s[x] as usize - s[x] as usize;\n')], unread, 'evaluation: weight_at has s[x] 3 times'),

    ('evaluation', "W under the shuffle's name", [('weight_at(n, m, w, s, p, tally)', 'weight_at(n, m, w, w, p, tally)')], named, 'evaluation: evaluated gives w to weight_at for s'),
    ('evaluation', "W bound to the shuffle's name", [('    let u = p.u;\n', '    let s = w;\n    let u = p.u;\n')], named, 'evaluation: weight_at has w elsewhere than in a call or its length'),
    ('evaluation', 'the shuffle for a secret', [('    let a = s[u] as usize;\n', '    let a = s[u] as usize;\n    let seen = gates::load(s, 0);\n')],
     named, 'evaluation: weight_at gives s to load for table'),

    ('clearing', 'a call of another crate', [('    if left < 1 {\n', '    if std::num::wrapping_add_u32(0, 1) < 1 {\n        return t;\n    }\n    if left < 1 {\n')],
     within, 'clearing: cleared calls std::num::wrapping_add_u32'),
    ('clearing', 'a call of a name that is no function', [('    if left < 1 {\n', '    if u32::count_ones(1) < 1 {\n        return t;\n    }\n    if left < 1 {\n')],
     within, 'clearing: cleared calls u32::count_ones'),

    ('cursor', 'a cursor that compares', [('// How many subsets there are', 'pub fn shows(p: usize) -> usize {\n    std::num::wrapping_add_usize(p, 1)\n}\n\n// How many subsets there are')],
     within, 'cursor: shows calls std::num::wrapping_add_usize'),
    ('counting', 'a count that calls', [('    table[m] as usize\n', '    std::num::wrapping_add_usize(table[m] as usize, 0)\n')], within, 'counting: triples calls std::num::wrapping_add_usize'),

    ('choosing', 'an equality test that is not tallied', [('    let floor = gates::known(floor as usize);\n', '    let floor = gates::demux_readout(floor as usize, best.at);\n')],
     readout, 'choosing: final_test asks demux_readout(floor as usize, best.at)'),
    ('clearing', 'a place asked twice', [('    let first = gates::product(', '    let seen = gates::demux_readout(p.u, choice);\n    let first = gates::product(')],
     readout, 'clearing: weight_after asks demux_readout(p.u, choice)'),
    ('clearing', 'an equality test of a weight', [('    let first = gates::product(', '    let same = SecretPlaces { u: x, v: x, w: x };\n    let seen = gates::demux_readout(p.u, same);\n    let first = gates::product(')],
     readout, 'clearing: weight_after asks demux_readout(p.u, same)'),

    ('choosing', 'one subset at a time', [('    let half = weights.len() / 2;\n', '    let half = weights.len() - 1;\n')], halved, 'choosing: choose_halves does not halve'),
    ('choosing', 'one subset at a time, after a half', [('    let half = weights.len() / 2;\n', '    let half = weights.len() / 2;\n    let half: usize = 1;\n')], plain, 'choosing: choose_halves binds half again'),

    ('evaluation', 'a gate that runs uncounted', [('    let second = three(ac, cb, ba, first.tally);\n', '    let idle = gates::comparison(ab.w, ba.w, first.tally);\n    let second = three(ac, cb, ba, first.tally);\n')],
     threaded, 'evaluation: triple goes on with the tally of first 2 times'),
    ('evaluation', 'a step that runs twice and counts once', [('    *tally = evaluated(n, m, w, s, weights, old);\n', '    *tally = evaluated(n, m, w, s, weights, old);\n    *tally = evaluated(n, m, w, s, weights, old);\n')],
     threaded, 'evaluation: evaluate goes on with the tally of old 2 times'),
    ('evaluation', 'a subset that is weighed twice', [(
        '        tally = weighed.tally;\n', '        tally = weighed.tally;\n        let again = weight_at(n, m, w, s, p, tally);\n        tally = again.tally;\n')],
     threaded, 'evaluation: evaluated goes on with its tally more than once in a turn'),
    ('evaluation', 'a gate in a branch, uncounted', [('    if x == n {\n', '    if x == n {\n        let idle = two(ab, ba, t);\n    }\n    if x == n {\n')],
     threaded, 'evaluation: weight_at has an if that does not return'),
    ('clearing', 'a step that is run before', [('    let old = *tally;\n', '    let before = cleared(n, weights, choice, left, *tally);\n    let old = *tally;\n')],
     threaded, 'clearing: clear takes the lent tally out more than once'),
    ('clearing', 'all weights cleared twice', [('    all_cleared(n, weights, choice, t)\n', '    let c = all_cleared(n, weights, choice, t);\n    let again = all_cleared(n, weights, choice, c);\n    c\n')],
     threaded, 'clearing: cleared goes on with the tally of c 2 times'),
    ('evaluation', 'a step in a loop', [('    *tally = evaluated(n, m, w, s, weights, old);\n', '    let mut i: usize = 0;\n    while i < 2 {\n        *tally = evaluated(n, m, w, s, weights, old);\n        i += 1;\n    }\n')],
     threaded, 'evaluation: evaluate goes on with the tally of old in each turn'),
    ('evaluation', 'a step in a loop over places', [('    *tally = evaluated(n, m, w, s, weights, old);\n', '    for i in 0..n {\n        *tally = evaluated(n, m, w, s, weights, old);\n    }\n')],
     threaded, 'evaluation: evaluate goes on with the tally of old in each turn'),
    ('clearing', 'a tally that is thrown away', [('    if p.w == n {\n        return second;\n', '    if p.w == n {\n        return first;\n')],
     threaded, 'clearing: weight_after goes on with the tally of second 0 times'),
    ('choosing', 'a tally that is begun anew', [('    let chosen = choice(n, floor, weights, gates::begin_round(t));\n', '    let idle = gates::nothing_done();\n    let chosen = choice(n, floor, weights, gates::begin_round(t));\n')],
     threaded, 'choosing: chosen_in_round calls gates::nothing_done'),
    ('rounds', 'a tally that is looked at', [(ROUND, '        let counts = gates::counts_of(*tally);\n' + ROUND)], threaded, 'rounds: all_rounds calls gates::counts_of'),

    ('planner', 'a weight that is looked at between the steps', [('    rounds::all_rounds(', '    if weights[0] == 0 {\n        return tally;\n    }\n    rounds::all_rounds(')],
     planned, 'planner: steps is another'),
    ('planner', 'counts by formula', [('        tally: gates::counts_of(tally),\n', '        tally: Counts {\n            comparisons: all as u64,\n            products: all as u64,\n            rounds: rounds as u64,\n        },\n')],
     planned, 'planner: make is another'),
    ('planner', 'a module', [('// The plan, from checked input.', 'mod held {\n    pub fn none() {\n    }\n}\n\n// The plan, from checked input.')], planned, 'planner: has a module or a name of its own'),
    ('planner', 'steps that run twice', [('// The plan, from checked input.', 'fn other(t: Tally) -> Tally {\n    gates::begin_round(t)\n}\n\n// The plan, from checked input.')], planned, 'planner: runs a gate or a step elsewhere'),
]


def compiled(folder, crate):
    """Whether the compiler takes a crate, and what it says. It reads all of the crate before one function is checked, the first, whose proof doesn't
    count here; the compiler's own refusals have a name in brackets."""
    first = re.search(r'^(?:pub )?fn (\w+)', texts[crate], re.M)[1]
    run = subprocess.run(['rt', 'check', '--only', first], cwd=folder / 'crates' / crate, capture_output=True, text=True)
    said = run.stdout + run.stderr
    return 'only=1' in said and 'error[' not in said, said


def tried(cheats):
    """Of each of these cheats, in a copy of the tree: its text, whether every edit fits, and what the compiler says."""
    with tempfile.TemporaryDirectory() as folder:
        copy = pathlib.Path(folder)
        # with what the checker keeps of the crates, so that those below a cheat need not be proved again
        shutil.copytree(top / 'crates', copy / 'crates', ignore=lambda folder, _: ['out'] if pathlib.Path(folder).name == 'vadivuzhen' else [])
        shutil.copy(top / 'crates.txt', copy / 'crates.txt')
        outcomes = []
        for crate, what, edits, by, words in cheats:
            cheat, fits = texts[crate], True
            for old, new in edits:
                fits = fits and cheat.count(old) == 1
                cheat = cheat.replace(old, new)
            file = copy / 'crates' / crate / 'src/lib.rt'
            file.write_text(cheat)
            outcomes.append((cheat, fits, *compiled(copy, crate)))
            file.write_text(texts[crate])
        return outcomes


size = -(-len(CHEATS) // 4)
with concurrent.futures.ThreadPoolExecutor(4) as pool:
    outcomes = sum(pool.map(tried, [CHEATS[k:k + size] for k in range(0, len(CHEATS), size)]), [])
refusing = set()
for (crate, what, edits, by, words), (cheat, fits, taken, said) in zip(CHEATS, outcomes):
    check(fits, f'{crate}: {what}: the edit does not fit')
    if by is COMPILER:
        first = next((line for line in said.splitlines() if 'error[' in line), 'nothing')
        print(f'{crate}: {what}: the compiler: {first[first.find("error["):]}')
        check(not taken and words in said, f'{crate}: {what}: the compiler says: {said}')
    else:
        lines = [line for rule, line in faults(texts | {crate: cheat}) if rule is by]
        print(f'{crate}: {what}: {by.__name__}: {"; ".join(lines)}')
        check(words in lines, f'{crate}: {what}: no rule refuses it')
        check(taken, f'{crate}: {what}: the compiler refuses it already: {said}')
        refusing.add(by)
for rule in RULES:
    check(rule in refusing, f'no cheat is refused by the rule {rule.__name__}')

close()
