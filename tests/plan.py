"""The program `plan`, run: on the examples, on document 01's numbers and limits, on sheets of version 2 with the numbers of request W-205, and on whole and
damaged sheets of both versions beside the planner in Rust (trial/).

usage: plan.py [SEED [COUNT]]      the seed is printed, so that a failure can be run again"""
import fcntl
import os
import pathlib
import random
import subprocess
import sys
import time

from closing import built, check, close
from sheets import DOCUMENT, MOST_READ, bytes_read, damaged, registry, sheet_of, two_pairs, whole

top = pathlib.Path(__file__).resolve().parent.parent
examples = top / 'examples'
sys.path.insert(0, str(examples))
import make  # noqa: E402

PLAN = built('plan')
LOOK = built('look')
BUILT = top / 'trial' / 'target'
RUST = BUILT / 'release' / 'examples' / 'plan'


def printed(program, sheet):
    run = subprocess.run([program], input=sheet, capture_output=True)
    return run.stdout.decode() if run.returncode == 0 and not run.stderr else f'exit status {run.returncode}, {run.stderr}'


def expect(what, sheet, want):
    got = printed(PLAN, sheet)
    check(got == want, f'{what}: wants {want[:80]!r}, gives {got[:80]!r}')


def pool(count):
    """Pairs of one blood group, so that all suit each other."""
    return [(k + 1, [0, 0, 0, 0], [0, 0, 0]) for k in range(count)], list(range(count))


def counts(n):
    """Demand 3's tally."""
    triples, twos = n * (n - 1) * (n - 2) // 6, n * (n - 1) // 2
    subsets, rounds = triples + twos, n // 2
    products = 2 * twos + 7 * triples + rounds * (5 * subsets - 1) + (rounds - 1) * (2 * twos + 3 * triples) if rounds else 0
    return f'COUNTS {triples + rounds * subsets} {products} {rounds}'


def try_examples():
    for file in sorted(examples.glob('*.sheet')):
        expect(file.name, file.read_bytes(), file.with_suffix('.plan').read_text())
    for name, made in make.sheets().items():
        check((examples / f'{name}.sheet').read_bytes() == made, f'{name}.sheet is not what make.py makes')
    for file in sorted(examples.glob('*.sheet')):
        check(printed(RUST, file.read_bytes()) == file.with_suffix('.plan').read_text(), f'{file.stem}.plan is not what the planner in Rust prints')


    sheet = (examples / 'two.sheet').read_bytes()
    for cut in range(len(sheet)):
        expect(f'two.sheet cut at {cut}', sheet[:cut], f'REFUSED 1 {max(place for place in (0, 7, 42, 77) if place <= cut)}\n')


def try_limits():
    expect('nothing', b'', 'REFUSED 1 0\n')
    expect('no pairs', sheet_of([], []), 'PLAN 0 0 0\nCOUNTS 0 0 0\n')
    expect('41 pairs', sheet_of(*pool(41)), 'REFUSED 9 0\n')
    longest = sheet_of(*pool(200))
    check(len(longest) == 7410, f'the longest sheet of version 1 has {len(longest)} bytes')
    expect('7,410 bytes', longest, 'REFUSED 9 0\n')
    for length in (7411, 7412, 7425, 7426, 7427, 10 ** 6):
        expect(f'version 1 and {length} bytes', longest + bytes(length - 7410), 'REFUSED 5 7410\n')
    longest = sheet_of(*pool(200), DOCUMENT)
    check(len(longest) == 7425, f'the longest sheet of version 2 has {len(longest)} bytes')
    expect('7,425 bytes', longest, 'REFUSED 9 0\n')
    for length in (7426, 7427, 10 ** 6):
        expect(f'version 2 and {length} bytes', longest + bytes(length - 7425), 'REFUSED 5 7425\n')
    got = bytes_read(PLAN, longest + bytes(10000))
    check(got == MOST_READ, f'plan reads {got} bytes of a longer input')
    expect('201 pairs', sheet_of(*pool(201)), 'REFUSED 4 0\n')
    for n in range(41):
        lines = printed(PLAN, sheet_of(*pool(n))).splitlines()
        check(lines[-1:] == [counts(n)], f'{n} pairs: {lines[-1:]} for {counts(n)}')
        check(len(lines) == n + 2, f'{n} pairs: {len(lines)} lines')
    greatest = [(2 ** 32 - 1 - k, [0, 0, 0, 0], [0, 0, 0]) for k in range(40)], list(range(40))
    expect('40 pairs with the greatest ids', sheet_of(*greatest), printed(RUST, sheet_of(*greatest)))


def try_points():
    """Document 01's sheet in version 2, with the numbers of request W-205."""
    text = (examples / 'two.plan').read_text()

    def weighs(points, weight):
        expect(f'points {points}', two_pairs(points), text.replace('2900', str(weight)))

    check(text.startswith('PLAN 2 1 2900\n') and len(two_pairs(DOCUMENT)) == 99, 'document 01\'s sheet in version 2 has not 99 bytes')
    check(two_pairs() == (examples / 'two.sheet').read_bytes(), 'document 01\'s sheet is not two.sheet')
    weighs(DOCUMENT, 2900)
    weighs([2000, *DOCUMENT[1:]], 4900)
    weighs([65535, 0, 0, 0, 0, 0], 131070)
    weighs([1, 0, 0, 65534, 0, 0], 2)
    weighs([1, 65000, 0, 0, 534, 0], 131070)
    for cut in range(99):
        place = max(place for place in (0, 7, 22, 57, 92) if place <= cut)
        expect(f'version 2 cut at {cut}', two_pairs(DOCUMENT)[:cut], f'REFUSED 1 {place}\n')
    wrong = two_pairs([0, *DOCUMENT[1:]])
    expect('a base of 0', wrong, 'REFUSED 14 7\n')
    expect('a base of 0, and the first pair\'s tag wrong', wrong[:22] + b'\7' + wrong[23:], 'REFUSED 14 7\n')
    expect('a base of 0, and 201 pairs', wrong[:6] + bytes([201]) + wrong[7:], 'REFUSED 4 0\n')
    expect('65,536 together', two_pairs([2, 0, 0, 65534, 0, 0]), 'REFUSED 14 7\n')
    expect('201 pairs and a base of 0', sheet_of(*pool(201), [0] * 6), 'REFUSED 4 0\n')
    expect('201 pairs in version 2', sheet_of(*pool(201), DOCUMENT), 'REFUSED 4 0\n')
    expect('41 pairs in version 2', sheet_of(*pool(41), DOCUMENT), 'REFUSED 9 0\n')
    expect('no pairs in version 2', sheet_of([], [], DOCUMENT), 'PLAN 0 0 0\nCOUNTS 0 0 0\n')
    expect('points in version 1', two_pairs(DOCUMENT)[:4] + b'\1' + two_pairs(DOCUMENT)[5:], 'REFUSED 2 7\n')
    expect('no points in version 2', two_pairs()[:4] + b'\2' + two_pairs()[5:], 'REFUSED 2 7\n')
    expect('version 3', two_pairs(DOCUMENT)[:4] + b'\3' + two_pairs(DOCUMENT)[5:], 'REFUSED 3 0\n')
    lines = [printed(PLAN, (examples / f'{name}.sheet').read_bytes()).splitlines() for name in ('eight', 'eight_by_age')]
    check(lines[0][1:] != lines[1][1:] and lines[0][-1] == lines[1][-1], 'eight pairs by other points have the same partners, or another tally')


def try_triple():
    """The sheet of answers/specs/Examples, worked out by hand there: what document 01's example leaves alike differs."""
    high = 1 << 63
    alike = [0, 3, 0, 1], [high + 1, high, 0]
    pairs = [(7, [1, 2, 1, 0], [high, 2, 0]), (300, *alike), (10, *alike), (100, [0, 3, 0, 0], [0, 0, high])]
    other = 'PLAN 4 1 4030\n7 10 300\n300 7 10\n10 300 7\n100 - -\nCOUNTS 24 162 2\n'
    expect('a triple', sheet_of(pairs, [1, 3, 0, 2]), 'PLAN 4 1 4030\n7 300 10\n300 10 7\n10 7 300\n100 - -\nCOUNTS 24 162 2\n')
    for shuffle in ([0, 1, 2, 3], [2, 0, 3, 1]):
        expect(f'the same with the shuffle {shuffle}', sheet_of(pairs, shuffle), other)


def try_pieces():
    """Standard input that comes in pieces, with pauses in which the program can read what is there, is read to its end."""
    sheet = (examples / 'two.sheet').read_bytes()
    run = subprocess.Popen([PLAN], stdin=subprocess.PIPE, stdout=subprocess.PIPE)
    for piece in (sheet[:1], sheet[1:20], sheet[20:50], sheet[50:]):
        run.stdin.write(piece)
        run.stdin.flush()
        time.sleep(0.2)
    run.stdin.close()
    check(run.stdout.read() == (examples / 'two.plan').read_bytes(), 'a sheet that comes in pieces')
    check(run.wait() == 0, 'a sheet that comes in pieces: exit status')


def try_lost():
    """A read that fails, and output that is lost, are said on standard error; of input that could not be read nothing is planned."""
    with open('/dev/full', 'wb') as full, open(examples / 'two.sheet', 'rb') as sheet:
        run = subprocess.run([PLAN], stdin=sheet, stdout=full, stderr=subprocess.PIPE)
        check(run.stderr == b'plan: standard output could not be written; the text is not whole\n', f'output that is lost: {run.stderr}')
    folder = os.open(examples, os.O_RDONLY)
    run = subprocess.run([PLAN], stdin=folder, capture_output=True)
    os.close(folder)
    check(run.stdout == b'', f'a folder for a sheet: {run.stdout}')
    check(run.stderr == b'plan: standard input could not be read; nothing was planned\n', f'a folder for a sheet: {run.stderr}')


def try_silent():
    """`look` prints on where a piece of its text is lost, here since nobody reads the pipe, which has room for 30 bytes."""
    reads, writes = os.pipe()
    os.set_blocking(writes, False)
    room = fcntl.fcntl(writes, fcntl.F_SETPIPE_SZ, 4096)
    os.write(writes, bytes(room - 30))
    run = subprocess.run([LOOK], input=(examples / 'eight.sheet').read_bytes(), stdout=writes, stderr=subprocess.PIPE)
    os.close(writes)
    with open(reads, 'rb') as pipe:
        got = pipe.read()[room - 30:]
    check(run.returncode == 0 and not run.stderr, f'look with output that is lost: {run}')
    check(len(got) == 30 and got.startswith(b'8 pairs\npair 2071: donor O'), f'look with output that is lost: {got}')


def try_random(draw, count):
    """Sheets of at most 40 pairs and longer ones, whole and damaged."""
    answers = {}
    for _ in range(count):
        kind = draw.random()
        if kind < 0.3:
            sheet = sheet_of(*whole(draw))
        elif kind < 0.7:
            n = draw.randrange(41)
            pairs = [make.pair(draw, k + 1) for k in range(n)]
            sheet = sheet_of(pairs, draw.sample(range(n), n), registry(draw))
        else:
            sheet = damaged(draw)
        want = printed(RUST, sheet)
        check(want.startswith(('PLAN ', 'REFUSED ')), f'the planner in Rust on {sheet.hex()}: {want[:80]!r}')
        answer = want.split()[1] if want.startswith('REFUSED') else 'planned'
        answers[answer] = answers.get(answer, 0) + 1
        expect(f'sheet {sheet.hex()}', sheet, want)
    print('answers', ', '.join(f'{k}: {answers[k]}' for k in sorted(answers)))
    if count >= 1000:
        for answer in ('planned', '1', '2', '3', '4', '5', '6', '7', '8', '9', '14'):
            check(answer in answers, f'no sheet was {answer}')


def main():
    seed = int(sys.argv[1]) if len(sys.argv) > 1 else random.randrange(2 ** 32)
    count = int(sys.argv[2]) if len(sys.argv) > 2 else 1000
    print('seed', seed)
    built = subprocess.run(['cargo', 'build', '--release', '--offline', '--quiet', '--example', 'plan', '--target-dir', BUILT], cwd=top / 'trial', capture_output=True, text=True)
    check(built.returncode == 0, 'cargo build failed:\n' + built.stderr[-3000:])
    try_examples()
    try_limits()
    try_points()
    try_triple()
    try_pieces()
    try_lost()
    try_silent()
    try_random(random.Random(seed), count)
    close()


main()
