"""The library from Rust: the tests and the documentation of the crate in rust/, its example on document 01's sheet, on one of version 2, on damaged ones and
where nothing can be read or written, and the benchmark at one small size. Links the archive that tests/c.py makes, whatever VADIVUZHEN_LIB says."""
import os
import pathlib
import re
import subprocess

from closing import check, close

top = pathlib.Path(__file__).resolve().parent.parent
LIBRARY = {'VADIVUZHEN_LIB': str(top / 'crates' / 'vadivuzhen' / 'out')}
PRINTED = 'PLAN 2 1 2900\n11 12 12\n12 11 11\nCOUNTS 1 6 1\n'


def cargo(folder, *words, given=b'', out=subprocess.PIPE, **environment):
    return subprocess.run(['cargo', *words], cwd=top / folder, input=given, stdout=out, stderr=subprocess.PIPE,
                          env={**os.environ, **LIBRARY, **environment})


def said(done):
    return ((done.stdout or b'') + done.stderr).decode('utf-8', 'replace')[-3000:]


tests = cargo('rust', 'test', '--offline')
results = re.findall(r'^test (\S+.*) \.\.\. (\w+)', tests.stdout.decode(), re.M)
check(tests.returncode == 0, 'cargo test failed:\n' + said(tests))
check(len(results) >= 55, f'only {len(results)} tests ran')
for name, result in results:
    check(result == 'ok', f'{name}: {result}')

documented = cargo('rust', 'doc', '--offline', '--no-deps', RUSTDOCFLAGS='-D warnings')
check(documented.returncode == 0, 'cargo doc:\n' + said(documented))

two = (top / 'examples' / 'two.sheet').read_bytes()
other = (top / 'examples' / 'eight_by_age.sheet').read_bytes()
by_age = (top / 'examples' / 'eight_by_age.plan').read_text()
example = ['run', '--release', '--offline', '--quiet', '--example', 'plan']
for what, words, given, text, status in [
    ('a file', ['--', '../examples/two.sheet'], b'', PRINTED, 0),
    ('standard input', [], two, PRINTED, 0),
    ('a sheet that is cut off', [], two[:79], 'REFUSED 1 77\n', 1),
    ('many bytes more', [], two + bytes(10000), 'REFUSED 5 84\n', 1),
    ('version 2', [], other, by_age, 0),
    ('a base of 0', [], other[:10] + bytes(2) + other[12:], 'REFUSED 14 7\n', 1),
    ('many bytes more in version 2', [], other + bytes(10000), f'REFUSED 5 {len(other)}\n', 1),
    ('no file', ['--', '../examples/none.sheet'], b'', '', 2),
]:
    done = cargo('rust', *example, *words, given=given)
    check(done.stdout.decode() == text and done.returncode == status, f'the example on {what}:\n' + said(done))

with open('/dev/full', 'wb') as full:
    unwritten = cargo('rust', *example, given=two, out=full)
check(unwritten.returncode == 2 and b'the text cannot be written' in unwritten.stderr, 'the example with no room for its text:\n' + said(unwritten))

lost = cargo('rust', 'build', '--offline', VADIVUZHEN_LIB='nowhere')
told = [f"the proved library is not at {top / 'rust' / 'nowhere' / 'libvadivuzhen.a'}\n", 'run `rt lib` in crates/vadivuzhen']
check(lost.returncode != 0 and all(line in said(lost) for line in told), 'a build without the archive:\n' + said(lost))

bench = cargo('bench', 'run', '--release', '--offline', '--quiet', '--', '10')
check(bench.returncode == 0 and re.search(rb'^\| 10 \| \d+ \|', bench.stdout, re.M), 'the benchmark:\n' + said(bench))
check(re.search(rb'^\| pairs \| join.*\n.*\n\| 10 \| \d', bench.stdout, re.M), 'the benchmark does not time joining:\n' + said(bench))
check(re.search(rb'^\| pairs \| register.*\n.*\n\| 10 \| \d', bench.stdout, re.M), 'the benchmark does not time a live pool:\n' + said(bench))
check(re.search(rb'^\| pairs \| 1000 refreshes.*\n.*\n\| 10 \| \d', bench.stdout, re.M), 'the benchmark does not time refreshes:\n' + said(bench))
check(re.search(rb'^\| pairs \| floor.*\n.*\n\| 10 \| \d', bench.stdout, re.M), 'the benchmark does not time a floor:\n' + said(bench))
check(re.search(rb'^\| pairs \| read, version 2.*\n.*\n\| 10 \| \d', bench.stdout, re.M), 'the benchmark does not time version 2:\n' + said(bench))

close()
