"""Wrong versions of the rounds' loop, and of the records' copy, are refused for what they mean. Each change is made in a copy of the tree, and the crate
is checked: it must be taken by the compiler, the function that was changed alone must stay unproved, and what is said of its loop's turn, or of what it
returns, must have both the fact that is due and the one that the wrong program has in its place.
As controls, the copy is proved with nothing changed, and with a change of each function that leaves its meaning as it is."""
import concurrent.futures
import pathlib
import re
import shutil
import subprocess
import tempfile

from closing import check, close

top = pathlib.Path(__file__).resolve().parent.parent

CLEAR = '        clearing::clear(n, weights, at, choices.len() - k - 1, tally);\n'
ASKS = '''pub clear-requires : goal.clear-requires
clear-requires c =
    asks_clear _ _ _ _ _ c.requires _ _ _ _ c.loop-k.invariant (omega arith) _ _ _ c.choose-at.ensures

'''
CLEARED = ' _ _\n    (simp (c.choose-at.auto.choices, c.loop-k.auto.choices) at c.clear.ensures)\n'
NAMED = ' _ _\n    c.clear.ensures\n'
COPY = '    out[..cycles].copy_from_slice(&records[..cycles]);\n'

# crate, function, what is changed; the changes of the code; the goal that is refused, the fact that is due there, as after a turn of the loop, and the one
# in its place, as the checker says them, or nothing where the function still means the same; and changes of the answers, where these name what is gone from
# the code
CHANGES = [
    ('rounds', 'all_rounds', 'the rounds that are left are counted before the choice',
     [('        let at = choosing', '        let left = choices.len() - k - 1;\n        let at = choosing'), ('at, choices.len() - k - 1, tally', 'at, left, tally')],
     None),
    ('rounds', 'all_rounds', 'the weights are cleared after the last round too', [('choices.len() - k - 1', 'choices.len() - k')],
     ('loop-k-preserved', 'c.clear.new.weights (Rattle.greedy.specs.Rounds.clear_before',
      'clear_before (Prim.Native.Nat.◌-◌ (lib.ListN.length c.args.choices.now) c.loop-k.k)')),
    ('rounds', 'all_rounds', 'the rounds that are done are taken for those that are left', [('choices.len() - k - 1', 'k')],
     ('loop-k-preserved', '`(Prim.Native.Nat.◌-◌ (Prim.Native.Nat.◌-◌ (lib.ListN.length c.args.choices.now) c.loop-k.k) 1)`\n  (expected)',
      '`c.loop-k.k` (found)'), (CLEARED, NAMED)),
    ('rounds', 'all_rounds', 'nothing is cleared: all is chosen by the weights of round one', [(CLEAR, '')],
     ('loop-k-preserved', 'Rattle.greedy.specs.Rounds.clear_before', '`c.args.weights.now` (found)'),
     (ASKS, ''), (CLEARED, ' c.args.weights.now c.choose-at.new.tally (mathlib.Core.Path.refl, mathlib.Core.Path.refl)\n')),
    ('rounds', 'all_rounds', 'each choice is written in the place of the first',
     [('    for k in', '    let first: usize = 0;\n    for k in'), ('choices, k, tally', 'choices, first, tally')],
     ('loop-k-preserved', '`c.loop-k.k` (expected)', '`0` (found)')),
    ('rounds', 'all_rounds', 'the floor is not asked: all above 0 is chosen',
     [('    for k in', '    let none: u32 = 0;\n    for k in'), ('(n, floor, weights', '(n, none, weights')],
     ('loop-k-preserved', '`c.args.floor` (expected)', '`0` (found)')),
    ('records', 'write', 'the part that is copied has a name', [(COPY, '    let part = &records[..cycles];\n    out[..cycles].copy_from_slice(part);\n')], None),
    ('records', 'write', 'no record is told apart from some', [(COPY, '    if cycles == 0 {\n        return;\n    }\n' + COPY)], None),
    ('records', 'write', 'the first record is written each time',
     [(COPY, '    if cycles == 0 {\n        return;\n    }\n' + COPY.replace('..cycles', '..1'))],
     ('returns', 'filled (take c.args.cycles c.args.records)', 'lib.ListN.drop 1 c.args.out.now')),
    ('records', 'write', 'the last record is written each time',
     [(COPY, '    if cycles == 0 {\n        return;\n    }\n' + COPY.replace('..cycles', 'cycles - 1..cycles'))],
     ('returns', 'filled (take c.args.cycles c.args.records)', 'put_mid (c.args.cycles - 1)')),
]


def changed(file, text, edits):
    for old, new in edits:
        assert text.count(old) == 1, f'{file.name} has this {text.count(old)} times: {old}'
        text = text.replace(old, new)
    file.write_text(text)


def checked(folder, crate):
    """Whether a crate is proved, and what is said of it."""
    run = subprocess.run(['rt', 'check'], cwd=folder / 'crates' / crate, capture_output=True, text=True)
    return run.returncode == 0, run.stdout + run.stderr


def tried(crate, changes):
    """Whether the crate as it stands, and each of these changes of it, comes out as it must; with a line on each, and all that was said."""
    with tempfile.TemporaryDirectory() as folder:
        copy = pathlib.Path(folder)
        # with what the checker keeps of the crates, so that those below need not be proved again
        shutil.copytree(top / 'crates', copy / 'crates', ignore=lambda folder, _: ['out'] if pathlib.Path(folder).name == 'vadivuzhen' else [])
        shutil.copy(top / 'crates.txt', copy / 'crates.txt')
        source = copy / f'crates/{crate}/src/lib.rt'
        code = source.read_text()
        answers = {change[1]: copy / f'crates/{crate}/proofs/{change[1]}/Answers.antt' for change in changes}
        # of a function that is proved without, there are none
        answered = {function: file.read_text() for function, file in answers.items() if file.exists()}
        proved, said = checked(copy, crate)
        outcomes = [(proved, f'{crate}: as it stands: {"" if proved else "not "}proved', said)]
        for _, function, what, edits, facts, *mended in changes:
            changed(source, code, edits)
            if function in answered:
                changed(answers[function], answered[function], mended)
            assert function in answered or not mended, f'{function} has no answers to change'
            proved, said = checked(copy, crate)
            unproved = re.findall(r'^fn (\S+): (?:not proved|no proof)', said, re.M)
            # what is said of the goal, up to the next error: of its answer, or of what is to be shown where there is none
            answer = rf'proofs/{function}/Answers\.antt'
            goal, *due = facts or ['']
            told = re.search(rf'^(?:\./{answer}:\d+:\d+: error: `{goal}`: |note: `{goal}` of {answer} must prove: ).*?(?=^\S)', said, re.M | re.S)
            refused = not proved and 'error[' not in said and unproved == [f'{crate}::{function}'] and told and due and all(fact in told[0] for fact in due)
            line = 'proved' if proved else told[0].splitlines()[0] if told else 'not proved'
            outcomes.append((proved if facts is None else bool(refused), f'{crate}::{function}: {what}: {line}', said))
    return outcomes


# two copies at a time, with at most five changes each
crates = [change[0] for change in CHANGES]
parts = [(crate, [change for change in CHANGES if change[0] == crate][k:k + 5]) for crate in dict.fromkeys(crates) for k in range(0, crates.count(crate), 5)]
with concurrent.futures.ThreadPoolExecutor(2) as pool:
    for outcomes in pool.map(tried, *zip(*parts)):
        for ok, line, said in outcomes:
            print(line[:300])
            check(ok, f'{line}: {said}')

close()
