"""Counts checks and closes with the line that the gate adds up: 'N passed, M failed'. And the programs of the repository, as they are built."""
import pathlib
import subprocess
import sys

passed = 0
faults = []


def check(ok, what):
    """Counts a check, and keeps what was wrong."""
    global passed
    if ok:
        passed += 1
    else:
        faults.append(what)


def built(program):
    """A program of the repository, proved and built where it was not."""
    crate = pathlib.Path(__file__).resolve().parent.parent / 'crates' / program
    made = subprocess.run(['rt', 'run'], cwd=crate, stdin=subprocess.DEVNULL, capture_output=True, text=True)
    assert made.returncode == 0, made.stdout + made.stderr
    return crate / 'out' / program


def close():
    for fault in faults:
        print(fault)
    print(f'{passed} passed, {len(faults)} failed')
    sys.exit(1 if faults else 0)
