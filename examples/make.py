"""Makes the examples `eight`, `thirty_six` and `eight_by_age`: a sheet of a made-up pool, always the same, and the plan that the planner in Rust (trial/)
prints of it. `eight_by_age` is `eight` in version 2, with points of another registry.

usage: make.py      writes NAME.sheet and NAME.plan beside this file"""
import pathlib
import random
import subprocess
import sys

here = pathlib.Path(__file__).resolve().parent
sys.path.insert(0, str(here.parent / 'tests'))
from sheets import sheet_of  # noqa: E402

PAIRS = {'eight': 8, 'thirty_six': 36}
# Points of a made-up registry, to which a young donor for a senior patient matters most: base; no mismatch, 1 or 2, 3 or 4; equal ages, young to
# senior. By them the eight pairs have another plan.
BY_AGE = [800, 300, 200, 150, 40, 600]
# With this seed both plans have cycles of two and of three pairs, and pairs that stay alone.
SEED = 27

# Blood groups O, A, B, AB by how often they are met.
BLOOD = [44, 42, 10, 4]
# Bits 0 to 63 of the laboratory's list: twenty antigens of locus A, thirty of B, fourteen of DR. Of each locus a person has two, or one twice.
LOCI = [range(0, 20), range(20, 50), range(50, 64)]


def suits(donor, patient):
    """O suits all; A suits A and AB; B suits B and AB; AB suits AB."""
    return donor in (0, patient) or patient == 3


def antigens(draw):
    """Two of each locus, the first ones of a locus more often."""
    bits = 0
    for locus in LOCI:
        for bit in draw.choices(locus, [1 / (k + 2) for k in range(len(locus))], k=2):
            bits |= 1 << bit
    return bits


def antibodies(draw, own):
    """Against none, some or many antigens, never against the patient's own."""
    share = draw.choices([0, 0.05, 0.25, 0.7], [55, 25, 12, 8])[0]
    return sum(1 << bit for bit in range(64) if draw.random() < share) & ~own


def pair(draw, pair_id):
    """A patient and a donor who does not suit that patient."""
    while True:
        donor_blood, patient_blood = draw.choices(range(4), BLOOD, k=2)
        donor_age, patient_age = draw.choices([0, 1], [70, 30])[0], draw.choices([0, 1], [60, 40])[0]
        donor, patient = antigens(draw), antigens(draw)
        against = antibodies(draw, patient)
        if not suits(donor_blood, patient_blood) or donor & against:
            return pair_id, [donor_blood, patient_blood, donor_age, patient_age], [donor, patient, against]


def sheet(count, points=None):
    """The sheet of that many pairs: of version 2 with these points, or of version 1 without."""
    draw = random.Random(SEED)
    pairs = [pair(draw, pair_id) for pair_id in sorted(draw.sample(range(1000, 10000), count))]
    shuffle = list(range(count))
    draw.shuffle(shuffle)
    return sheet_of(pairs, shuffle, points)


def sheets():
    """All sheets that are made here, by name."""
    made = {name: sheet(count) for name, count in PAIRS.items()}
    return {**made, 'eight_by_age': sheet(PAIRS['eight'], BY_AGE)}


def plan(sheet):
    """What the planner in Rust prints."""
    words = ['cargo', 'run', '--release', '--offline', '--quiet', '--example', 'plan']
    return subprocess.run(words, cwd=here.parent / 'trial', input=sheet, capture_output=True, check=True).stdout


def main():
    for name, made in sheets().items():
        (here / f'{name}.sheet').write_bytes(made)
        (here / f'{name}.plan').write_bytes(plan(made))


if __name__ == '__main__':
    main()
