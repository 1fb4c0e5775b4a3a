"""The library from C: the header by itself as C11 and as C++, its lengths for 0 to 200 pairs, the example examples/plan.c on document 01's sheet in both
versions and on damaged ones, which must print document 01's text and refusals, and the calls of tests/calls.c, joining, floors, points, weightless edges,
the sum that credits the twos and live pools among them, each with its answer."""
import math
import pathlib
import subprocess
import tempfile

from closing import check, close

top = pathlib.Path(__file__).resolve().parent.parent
STRICT = ['-Wall', '-Wextra', '-Werror', '-pedantic', '-I', top / 'include']
LIBRARY = top / 'crates' / 'vadivuzhen' / 'out' / 'libvadivuzhen.a'
PRINTED = 'PLAN 2 1 2900\n11 12 12\n12 11 11\nCOUNTS 1 6 1\n'
POINTS = bytes.fromhex('04 000C 03E8 0190 00FA 0064 0032 001E')

LENGTHS = r'''
#include <stdio.h>
#include "vadivuzhen.h"
int main(void)
{
    for (int n = 0; n <= VADIVUZHEN_MOST_PAIRS; n++)
        printf("%d %zu %zu %zu %zu %zu %zu %zu\n", n, VADIVUZHEN_SHEET(n), VADIVUZHEN_SHEET_2(n), VADIVUZHEN_ENTRIES(n), VADIVUZHEN_SUBSETS(n),
               VADIVUZHEN_ROUNDS(n), VADIVUZHEN_RECORDS(n), VADIVUZHEN_PLAN_TEXT(n));
    return 0;
}
'''


def run(*words, given=b''):
    return subprocess.run(words, cwd=top, input=given, capture_output=True)


def builds(what, *words, given=b''):
    """Runs a compiler; what it says is the fault."""
    built = run(*words, given=given)
    check(built.returncode == 0, f'{what}:\n' + (built.stdout + built.stderr).decode('utf-8', 'replace')[-3000:])
    return built.returncode == 0


def changed(sheet, at, byte):
    return sheet[:at] + bytes([byte]) + sheet[at + 1:]


def try_lengths(folder):
    program = folder / 'lengths'
    if not builds('the lengths', 'gcc', '-std=c11', *STRICT, '-x', 'c', '-', '-o', program, given=LENGTHS.encode()):
        return
    lines = run(program).stdout.decode().splitlines()
    check(len(lines) == 201, f'the lengths: {len(lines)} lines')
    for line in lines:
        n, *lengths = map(int, line.split())
        subsets = math.comb(n, 3) + math.comb(n, 2)
        due = [7 + 35 * n + 3 + 2 * n, 7 + 15 + 35 * n + 3 + 2 * n, n * n, subsets, n // 2, n // 2, 138 + 33 * n]
        check(lengths == due, f'the lengths for {n} pairs are {lengths}, due are {due}')


def try_example(folder):
    program = folder / 'plan'
    if not builds('examples/plan.c', 'gcc', '-std=c11', *STRICT, top / 'examples' / 'plan.c', LIBRARY, '-o', program):
        return

    def prints(what, done, text, status):
        check(done.stdout.decode('utf-8', 'replace') == text and done.returncode == status,
              f'{what}: printed {done.stdout!r} with status {done.returncode}, due is {text!r} with {status}')

    two = (top / 'examples' / 'two.sheet').read_bytes()
    empty = bytes.fromhex('01 0004 0001 0000 03 0000')
    # its points stand at 7, its pairs at 22 and 57, its shuffle at 92; it ends at 99
    other = changed(two[:7], 4, 2) + POINTS + two[7:]
    base = changed(changed(other, 10, 0x07), 11, 0xD0)
    zero = changed(changed(other, 10, 0), 11, 0)
    heavy = other[:10] + bytes.fromhex('FFFF') + bytes(10) + other[22:]
    prints('a file', run(program, 'examples/two.sheet'), PRINTED, 0)
    prints('standard input', run(program, given=two), PRINTED, 0)
    prints('no pairs', run(program, given=empty), 'PLAN 0 0 0\nCOUNTS 0 0 0\n', 0)
    prints('no pairs in version 2', run(program, given=changed(empty[:7], 4, 2) + POINTS + empty[7:]), 'PLAN 0 0 0\nCOUNTS 0 0 0\n', 0)
    prints('version 2', run(program, given=other), PRINTED, 0)
    prints('version 2 with base 2,000', run(program, given=base), PRINTED.replace('2900', '4900'), 0)
    prints('version 2 with base 65,535 alone', run(program, given=heavy), PRINTED.replace('2900', '131070'), 0)
    eight = (top / 'examples' / 'eight_by_age.plan').read_text()
    prints('eight pairs in version 2', run(program, 'examples/eight_by_age.sheet'), eight, 0)
    prints('no file', run(program, 'examples/none.sheet'), '', 2)
    # the fields of the sheet stand at 0, 7, 42 and 77; it ends at 84
    for what, sheet, number, place in [
        ('nothing', b'', 1, 0),
        ('a start cut off', two[:79], 1, 77),
        ('a value cut off', two[:41], 1, 7),
        ('another tag', changed(two, 42, 3), 2, 42),
        ('another length', changed(two, 79, 2), 2, 77),
        ('version 0', changed(two, 4, 0), 3, 0),
        ('version 3', changed(other, 4, 3), 3, 0),
        ('version 2 without points', changed(two, 4, 2), 2, 7),
        ('version 1 with points', changed(other, 4, 1), 2, 7),
        ('points cut off', other[:21], 1, 7),
        ('a base of 0', zero, 14, 7),
        ('a base of 0 and a wrong tag after it', changed(zero, 22, 3), 14, 7),
        ('a base of 0 and 201 pairs', changed(zero, 6, 201), 4, 0),
        ('a byte more in version 2', other + b'\0', 5, 99),
        ('many bytes more in version 2', other + bytes(10000), 5, 99),
        ('201 pairs', changed(two, 6, 201), 4, 0),
        ('a byte more', two + b'\0', 5, 84),
        ('many bytes more', two + bytes(10000), 5, 84),
        ('donor blood 4', changed(two, 14, 4), 6, 7),
        ('patient age 2', changed(two, 52, 2), 6, 42),
        ('the id again', changed(two, 48, 11), 7, 42),
        ('0 0 for a shuffle', changed(two, 83, 0), 8, 77),
        ('0 2 for a shuffle', changed(two, 83, 2), 8, 77),
    ]:
        prints(what, run(program, given=sheet), f'REFUSED {number} {place}\n', 1)


def try_calls(folder):
    program = folder / 'calls'
    if not builds('tests/calls.c', 'gcc', '-std=c11', *STRICT, top / 'tests' / 'calls.c', LIBRARY, '-o', program):
        return
    done = run(program, given=(top / 'examples' / 'two.sheet').read_bytes())
    lines = done.stdout.decode().splitlines()
    check(done.returncode == 0 and len(lines) == 227, f'tests/calls.c: status {done.returncode}, {len(lines)} checks')
    for line in lines:
        check(line.startswith('ok: '), f'tests/calls.c: {line}')


made = subprocess.run(['rt', 'lib'], cwd=LIBRARY.parent.parent, capture_output=True)
check(made.returncode == 0 and LIBRARY.is_file(), 'rt lib in crates/vadivuzhen:\n' + (made.stdout + made.stderr).decode('utf-8', 'replace')[-3000:])
builds('the header as C11', 'gcc', '-std=c11', *STRICT, '-fsyntax-only', '-x', 'c', top / 'include' / 'vadivuzhen.h')
builds('the header as C++', 'g++', '-std=c++11', *STRICT, '-fsyntax-only', '-x', 'c++', top / 'include' / 'vadivuzhen.h')
with tempfile.TemporaryDirectory() as name:
    try_lengths(pathlib.Path(name))
    try_example(pathlib.Path(name))
    try_calls(pathlib.Path(name))

close()
