"""Sheets of both versions made and damaged at random, read by the program `look` and by a reader written here from documents 01 and 02 alone: the same
answer, number and place. Before them the sheets that request W-205 speaks of, with their answers by hand.

usage: sheets.py [SEED [COUNT]]      the seed is printed, so that a failure can be run again"""
import os
import random
import subprocess
import sys
import tempfile

from closing import built, check, close

BLOOD = ['O', 'A', 'B', 'AB']
AGE = ['young', 'senior']
# Document 01's points: base; no mismatch, 1 or 2, 3 or 4; equal ages, young donor and senior patient.
DOCUMENT = [1000, 400, 250, 100, 50, 30]
# The longest sheet, and one byte more.
MOST_READ = 7426


# ---- A sheet, from documents 01 and 02

def field(tag, value):
    return bytes([tag]) + len(value).to_bytes(2, 'big') + value


def numbers(values):
    return b''.join(value.to_bytes(2, 'big') for value in values)


def sheet_of(pairs, shuffle, points=None):
    """Of version 2 with these points, or of version 1 without."""
    sheet = field(1, numbers([1 if points is None else 2, len(pairs)]))
    if points is not None:
        sheet += field(4, numbers(points))
    for pair_id, groups, words in pairs:
        sheet += field(2, pair_id.to_bytes(4, 'big') + bytes(groups) + b''.join(w.to_bytes(8, 'big') for w in words))
    return sheet + field(3, numbers(shuffle))


def passes(points):
    """Does 14 let these points pass?"""
    base, *steps = points
    return base > 0 and base + max(steps[:3]) + max(steps[3:]) <= 65535


class Refused(Exception):
    pass


def read(sheet):
    """The pairs, the shuffle and the points, None in version 1; or Refused(number, place)."""
    at = 0

    def due(tag, length):
        nonlocal at
        start = sheet[at:at + 3]
        if len(start) < 3:
            raise Refused(1, at)
        if start[0] != tag or int.from_bytes(start[1:], 'big') != length:
            raise Refused(2, at)
        value = sheet[at + 3:at + 3 + length]
        if len(value) < length:
            raise Refused(1, at)
        place, at = at, at + 3 + length
        return place, value

    place, value = due(1, 4)
    version, count = int.from_bytes(value[:2], 'big'), int.from_bytes(value[2:], 'big')
    if version not in (1, 2):
        raise Refused(3, place)
    if count > 200:
        raise Refused(4, place)
    points = None
    if version == 2:
        place, value = due(4, 12)
        points = [int.from_bytes(value[k:k + 2], 'big') for k in range(0, 12, 2)]
        if not passes(points):
            raise Refused(14, place)
    pairs = []
    for _ in range(count):
        place, value = due(2, 32)
        groups = list(value[4:8])
        if max(groups[:2]) > 3 or max(groups[2:]) > 1:
            raise Refused(6, place)
        pair_id = int.from_bytes(value[:4], 'big')
        if any(pair_id == p[0] for p in pairs):
            raise Refused(7, place)
        pairs.append((pair_id, groups, [int.from_bytes(value[k:k + 8], 'big') for k in (8, 16, 24)]))
    place, value = due(3, 2 * count)
    shuffle = [int.from_bytes(value[2 * k:2 * k + 2], 'big') for k in range(count)]
    if sorted(shuffle) != list(range(count)):
        raise Refused(8, place)
    if at < len(sheet):
        raise Refused(5, at)
    return pairs, shuffle, points


def said(sheet):
    """What `look` should print, which reads at most 7,426 bytes."""
    try:
        pairs, shuffle, points = read(sheet[:MOST_READ])
    except Refused as refusal:
        return 'REFUSED %d %d\n' % refusal.args
    lines = ['%d pairs' % len(pairs)]
    if points is not None:
        lines.append(' '.join(['points'] + [str(point) for point in points]))
    for pair_id, (donor_blood, patient_blood, donor_age, patient_age), (has, wants, anti) in pairs:
        lines.append('pair %d: donor %s %s antigens %x, patient %s %s antigens %x antibodies %x' % (
            pair_id, BLOOD[donor_blood], AGE[donor_age], has, BLOOD[patient_blood], AGE[patient_age], wants, anti))
    lines.append(' '.join(['shuffle'] + [str(p) for p in shuffle]))
    return '\n'.join(lines) + '\n'


# ---- Sheets at random

def registry(draw):
    """Points that pass: document 01's, such as are just so much together as may be, or less, with the largest steps anywhere; or None, for version 1."""
    kind = draw.randrange(6)
    if kind < 2:
        return None
    if kind == 2:
        return DOCUMENT
    if kind == 3:
        return draw.choice([[1, 0, 0, 65534, 0, 0], [65535, 0, 0, 0, 0, 0], [1, 0, 0, 0, 0, 0], [1, 0, 0, 0, 0, 65534], [1, 7, 80, 900, 5, 60]])
    together = 65535 if kind == 4 else draw.randrange(1, 65536)
    base = draw.randrange(1, together + 1)
    largest = draw.randrange(together - base + 1)
    larger = together - base - largest
    mismatch, age = [draw.randint(0, largest) for _ in range(3)], [draw.randint(0, larger) for _ in range(2)]
    mismatch[draw.randrange(3)], age[draw.randrange(2)] = largest, larger
    return [base, *mismatch, *age]


def wrong_points(draw):
    """Points that 14 refuses: a base of 0, or one too much together, or more."""
    points = None
    while points is None:
        points = registry(draw)
    points = list(points)
    if draw.random() < 0.4:
        points[0] = 0
    else:
        # one more than may be, in the base or in the largest of either sort of steps
        missing = 65535 - points[0] - max(points[1:4]) - max(points[4:])
        place = draw.choice([0, 1 + points[1:4].index(max(points[1:4])), 4 + points[4:].index(max(points[4:]))])
        points[place] += missing + 1
        if points[place] > 65535:
            points = [65535] * 6
    return points


def whole(draw):
    count = draw.choice([0, 1, 2, 3, 5, 8, draw.randrange(201)])
    ids = draw.sample(range(2 ** 32), count)
    if count and draw.random() < 0.5:
        ids[0] = draw.choice([0, 2 ** 32 - 1])
        ids = list(dict.fromkeys(ids))
    pairs = [(i, [draw.randrange(4), draw.randrange(4), draw.randrange(2), draw.randrange(2)],
              [draw.choice([0, 1, 2 ** 63, 2 ** 64 - 1, draw.getrandbits(64)]) for _ in range(3)]) for i in ids]
    shuffle = list(range(len(pairs)))
    draw.shuffle(shuffle)
    return pairs, shuffle, registry(draw)


def damaged(draw):
    pairs, shuffle, points = whole(draw)
    kind = draw.randrange(12)
    if kind == 0 and pairs:
        pairs.append((draw.choice(pairs)[0], [0, 0, 0, 0], [0, 0, 0]))
        shuffle.append(len(shuffle))
    elif kind == 1 and pairs:
        draw.choice(pairs)[1][draw.randrange(4)] = draw.choice([1, 2, 3, 4, 255])
    elif kind == 2 and pairs:
        shuffle[draw.randrange(len(shuffle))] = draw.choice([0, len(shuffle) - 1, len(shuffle), 65535])
    elif kind == 3:
        pairs = pairs + [(2 ** 31 + k, [0, 0, 0, 0], [0, 0, 0]) for k in range(201 - len(pairs))]
        shuffle = list(range(len(pairs)))
    elif kind == 9:
        points = wrong_points(draw)
    sheet = bytearray(sheet_of(pairs, shuffle, points))
    if kind == 4:
        del sheet[draw.randrange(len(sheet)):]
    elif kind == 5:
        sheet += bytes(draw.randrange(256) for _ in range(draw.choice([1, 2, 3, 40])))
    elif kind == 6:
        sheet[draw.randrange(len(sheet))] = draw.randrange(256)
    elif kind == 7:
        cut = draw.randrange(len(sheet))
        sheet = sheet[cut:] + sheet[:cut]
    elif kind == 8:
        sheet[draw.randrange(min(7, len(sheet)))] ^= 1 << draw.randrange(8)
    elif kind == 10:
        sheet[4] = draw.randrange(4)
    elif kind == 11:
        # a field of points where none is due, or none where it is
        sheet[7:7 if points is None else 22] = field(4, numbers(DOCUMENT)) if points is None else b''
    return bytes(sheet)


# ---- The sheets of request W-205, with what `look` says of them

def two_pairs(points=None):
    """Document 01's sheet."""
    return sheet_of([(11, [1, 2, 0, 0], [0, 0, 0]), (12, [2, 1, 0, 0], [0, 0, 0])], [0, 1], points)


def by_hand():
    """Sheets, each with what `look` prints of it: a printout, or a refusal's number and place."""
    donor = 'donor %s young antigens 0, patient %s young antigens 0 antibodies 0\n'
    looked = 'pair 11: ' + donor % ('A', 'B') + 'pair 12: ' + donor % ('B', 'A') + 'shuffle 0 1\n'
    two, wrong = two_pairs(DOCUMENT), two_pairs([0, *DOCUMENT[1:]])
    yield 'version 1', two_pairs(), '2 pairs\n' + looked
    yield 'version 2', two, '2 pairs\npoints 1000 400 250 100 50 30\n' + looked
    yield 'points at the limit', two_pairs([1, 0, 0, 65534, 0, 0]), '2 pairs\npoints 1 0 0 65534 0 0\n' + looked
    yield 'no pairs', sheet_of([], [], [65535, 0, 0, 0, 0, 0]), '0 pairs\npoints 65535 0 0 0 0 0\nshuffle\n'
    for cut in range(7, 22):
        yield f'cut at {cut}', two[:cut], (1, 7)
    yield 'cut at 22', two[:22], (1, 22)
    yield 'points in version 1', two[:4] + b'\1' + two[5:], (2, 7)
    yield 'no points in version 2', two[:7] + two[22:], (2, 7)
    yield 'version 3', two[:4] + b'\3' + two[5:], (3, 0)
    yield 'a base of 0', wrong, (14, 7)
    yield 'a base of 0 and a wrong tag after it', wrong[:22] + b'\7' + wrong[23:], (14, 7)
    yield 'a base of 0 and 201 pairs', wrong[:6] + bytes([201]) + wrong[7:], (4, 0)
    yield 'a base of 0 and no pairs', sheet_of([], [], [0] * 6), (14, 7)
    for larger in 4, 5:
        for largest in 1, 2, 3:
            points = [40000, 0, 0, 0, 0, 0]
            points[largest], points[larger] = 25000, 536
            yield f'points {points}', two_pairs(points), (14, 7)
            points[larger] = 535
            yield f'points {points}', two_pairs(points), f'2 pairs\npoints {" ".join(map(str, points))}\n' + looked
    many = [(k, [0, 0, 0, 0], [0, 0, 0]) for k in range(200)], list(range(200))
    one, two = sheet_of(*many), sheet_of(*many, DOCUMENT)
    for sheet, length, place in (two, 7426, 7425), (two, 10000, 7425), (one, 7411, 7410), (one, 7426, 7410), (one, 7427, 7410):
        yield f'{length} bytes', sheet + bytes(length - len(sheet)), (5, place)


def bytes_read(program, data):
    """How many bytes of its standard input a program reads, a file of these."""
    with tempfile.TemporaryFile() as file:
        file.write(data)
        file.seek(0)
        subprocess.run([program], stdin=file, capture_output=True)
        return os.lseek(file.fileno(), 0, os.SEEK_CUR)


def main():
    seed = int(sys.argv[1]) if len(sys.argv) > 1 else random.randrange(2 ** 32)
    count = int(sys.argv[2]) if len(sys.argv) > 2 else 2000
    print('seed', seed)
    look = built('look')
    draw = random.Random(seed)
    for what, sheet, want in by_hand():
        want = want if isinstance(want, str) else 'REFUSED %d %d\n' % want
        check(said(sheet) == want, f'{what}: the reader here says {said(sheet)[:80]!r}, due is {want[:80]!r}')
        got = subprocess.run([look], input=sheet, capture_output=True).stdout.decode()
        check(got == want, f'{what}: look says {got[:80]!r}, due is {want[:80]!r}')
    got = bytes_read(look, bytes(10000))
    check(got == MOST_READ, f'look reads {got} bytes of 10,000')
    answers = {}
    for _ in range(count):
        sheet = sheet_of(*whole(draw)) if draw.random() < 0.3 else damaged(draw)
        want = said(sheet)
        run = subprocess.run([look], input=sheet, capture_output=True)
        got = run.stdout.decode()
        kind = want.split()[1] if want.startswith('REFUSED') else 'version 2' if '\npoints ' in want else 'version 1'
        answers[kind] = answers.get(kind, 0) + 1
        check(run.returncode == 0 and got == want, f'sheet {sheet.hex()} wants {want[:80]!r} gives {got[:80]!r}')
    print('answers', ', '.join(f'{k}: {answers[k]}' for k in sorted(answers)))
    if count >= 2000:
        for kind in ('version 1', 'version 2', '1', '2', '3', '4', '5', '6', '7', '8', '14'):
            check(kind in answers, f'no sheet was {kind}')
    close()


if __name__ == '__main__':
    main()
