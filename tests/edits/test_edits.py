#!/usr/bin/env python3
"""Tests of tools/edits, on a small tree of its own.

    python3 tests/edits/test_edits.py
"""
import pathlib
import subprocess
import tempfile
import unittest

ROOT = pathlib.Path(__file__).resolve().parents[2]
CODE = 'fn one() -> u8 {\n    1 + 2\n}\nfn two() -> u8 {\n    2 + 2\n}\n'
OTHERS = {'specs/One.antt': 'unfoldable pub one : ℕ\none = 1\n', 'proofs/Laws.antt': 'pub one-is : one ≡ 1\none-is = refl\n'}
GOOD = '# one is one\nfile: src/lib.rt\nold: 1 + 2\nnew: 1 + 3\n'
# an edit, and what is said of it
BAD = [
    ('file: src/lib.rt\nold: 1 + 2\nnew: 1 + 3\n', 'no comment in its first line'),
    ('', 'no comment in its first line'),
    ('# text\nfile: src/other.rt\nold: 1 + 2\nnew: 1 + 3\n', 'no file src/other.rt'),
    ('# text\nfile: proofs/one/Answers.antt\nold: x\nnew: y\n', 'no file proofs/one/Answers.antt'),
    ('# text\nfile: stdin\nold: 1 + 2\nnew: 1 + 3\n', 'stdin is not below src/, specs/ or proofs/'),
    ('# text\nfile: src/../src/lib.rt\nold: 1 + 2\nnew: 1 + 3\n', 'src/../src/lib.rt is not below'),
    ('# text\nfile: src/lib.rt\nold: 1 + 4\nnew: 1 + 3\n', "stands 0 times in lib.rt"),
    ('# text\nfile: src/lib.rt\nold: + 2\nnew: + 3\n', "stands 2 times in lib.rt"),
    ('# text\nfile: src/lib.rt\nold: 1 + 2\nnew: 1 + 2\n', 'are the same'),
    ('# text\nfile: src/lib.rt\nold: 1 + 2\nnew: 2 + 2\nold: 2 + 2\nnew: 3\n', 'stands 2 times in lib.rt'),
    ('# text\nfile: src/lib.rt\nnew: 3\n', 'stands 0 times in lib.rt'),
    ('# text\nfile: src/lib.rt\n', "no 'old:' and 'new:'"),
]


class Edits(unittest.TestCase):
    def run_on(self, *edits):
        with tempfile.TemporaryDirectory() as folder:
            crate = pathlib.Path(folder) / 'crates' / 'fit'
            for name, text in {'src/lib.rt': CODE, 'stdin': CODE, **OTHERS}.items():
                (crate / name).parent.mkdir(parents=True, exist_ok=True)
                (crate / name).write_text(text)
            (crate / 'must-fail').mkdir()
            for number, edit in enumerate(edits):
                (crate / 'must-fail' / ('edit_%d.edit' % number)).write_text(edit)
            return subprocess.run([str(ROOT / 'tools' / 'edits'), folder], capture_output=True, text=True)

    def test_good(self):
        ran = self.run_on(GOOD, GOOD.replace('new: 1 + 3\n', 'new: 1 + 3\nold: 1 + 3\nnew: 3\n'))
        self.assertEqual((ran.returncode, ran.stdout, ran.stderr), (0, 'edits: 2 edits, 0 faults\n', ''))

    def test_other_files(self):
        """A definition, a law, and both behind the code."""
        pairs = 'file: specs/One.antt\nold: one = 1\nnew: one = 2\n', 'file: proofs/Laws.antt\nold: ≡ 1\nnew: ≡ 2\n'
        ran = self.run_on('# one is one\n' + pairs[0], '# one is one\n' + pairs[1], GOOD + ''.join(pairs))
        self.assertEqual((ran.returncode, ran.stdout, ran.stderr), (0, 'edits: 3 edits, 0 faults\n', ''))

    def test_each_fault_alone(self):
        for edit, message in BAD:
            ran = self.run_on(GOOD, edit)
            self.assertEqual((ran.returncode, ran.stdout), (1, 'edits: 2 edits, 1 faults\n'), edit)
            self.assertIn('crates/fit/must-fail/edit_1.edit: ', ran.stderr)
            self.assertIn(message, ran.stderr)

    def test_no_edits(self):
        self.assertEqual(self.run_on().returncode, 1)


if __name__ == '__main__':
    unittest.main()
