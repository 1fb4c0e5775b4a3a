"""The planner in Rust that trial/ has, written from documents 01 and 02 alone: its own tests; its plans of the pools that the program `try_pools` plans,
its order of the subsets that `try_subsets` tries, and what becomes of the live pools that `try_lives` keeps, which must be what crates/try_pools/stdout,
crates/try_subsets/stdout and crates/try_lives/stdout have, byte for byte; and the library run beside it on random, damaged and faulty input. Links the
archive that tests/c.py makes, whatever VADIVUZHEN_LIB says."""
import os
import pathlib
import re
import subprocess

from closing import check, close

top = pathlib.Path(__file__).resolve().parent.parent
LIBRARY = {'VADIVUZHEN_LIB': str(top / 'crates' / 'vadivuzhen' / 'out')}


def cargo(folder, *words):
    return subprocess.run(['cargo', *words], cwd=top / folder, capture_output=True, text=True, env={**os.environ, **LIBRARY})


tests = cargo('trial', 'test', '--release', '--offline')
results = re.findall(r'^test (\S+.*) \.\.\. (\w+)', tests.stdout, re.M)
check(tests.returncode == 0, 'cargo test failed:\n' + tests.stdout[-3000:] + tests.stderr[-3000:])
check(len(results) >= 174, f'only {len(results)} tests ran')
for name, result in results:
    check(result == 'ok', f'{name}: {result}')

for example, program in ('pools', 'try_pools'), ('subsets', 'try_subsets'), ('lives', 'try_lives'):
    printed = cargo('trial', 'run', '--release', '--offline', '--quiet', '--example', example)
    expected = (top / 'crates' / program / 'stdout').read_text()
    check(printed.returncode == 0, f'the example {example} failed:\n' + printed.stderr[-3000:])
    for got, want in zip(printed.stdout.splitlines(), expected.splitlines()):
        check(got == want, f'the planner in Rust prints {got[:100]!r}, crates/{program}/stdout has {want[:100]!r}')
    check(printed.stdout == expected, f'what the planner in Rust prints is not crates/{program}/stdout')

beside = cargo('trial/beside', 'run', '--release', '--offline', '--quiet')
print(beside.stdout.rpartition('\n')[0].rpartition('\n')[0])
check(beside.returncode == 0, 'the library beside the planner in Rust:\n' + beside.stdout[-3000:] + beside.stderr[-3000:])
groups = {name: (int(cases), int(failures)) for name, cases, failures in re.findall(r'^(\S+): (\d+) cases, (\d+) failures', beside.stdout, re.M)}
check(len(groups) == 22, f'{len(groups)} groups of trials ran')
for name, (cases, failures) in groups.items():
    check(cases > 0 and failures == 0, f'{name}: {cases} cases, {failures} failures')
check(groups.get('damaged-sheets', (0, 0))[0] >= 100000, 'fewer than 100,000 damaged sheets')
check(groups.get('points', (0, 0))[0] >= 100000, 'fewer than 100,000 calls with points')
check(groups.get('live-pools', (0, 0))[0] >= 100000, 'fewer than 100,000 calls on live pools')

close()
