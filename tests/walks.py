"""No function has a proof by hand: what follows its code step by step is the checker's, and the tree has invariants, measures and answers to goals. No
proof of a function cites how the checker reads code."""
import pathlib
import re

from closing import check, close

top = pathlib.Path(__file__).resolve().parent.parent

folders = {file.parent for file in (top / 'crates').glob('*/proofs/**/*.antt') if file.name in ('Invariants.antt', 'Answers.antt', 'Proof.antt')}
check(folders, 'the tree has no proofs of functions')
for folder in sorted(folders):
    for file in sorted(folder.glob('*.antt')):
        name = file.relative_to(top)
        check(file.name != 'Proof.antt', f'{name}: a proof by hand')
        cited = r'^(?:unfoldable )?(?:pub )?use (mir|prog|sound|contract|denote|ghost|seplogic|types|base|borrow(?!\.Author\.)|Rattle\.lending)\b'
        for module in re.findall(cited, file.read_text(), re.M):
            check(False, f'{name}: cites {module}, how the checker reads code')

close()
