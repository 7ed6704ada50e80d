#!/usr/bin/env python3
"""Tests of tools/evidence and tools/definitions, on a changed copy of the sources.

    python3 tests/evidence/test_evidence.py
"""
import pathlib
import re
import shutil
import subprocess
import sys
import tempfile
import unittest

ROOT = pathlib.Path(__file__).resolve().parents[2]
sys.path.insert(0, str(ROOT / 'tools'))
from loading import loaded  # noqa: E402

FUNCTION = '''
%spub fn again(a: u8) -> u8
    ensures same { result ≡ placed_within a }
{
    a
}
'''


class Evidence(unittest.TestCase):
    @classmethod
    def setUpClass(cls):
        scratch = tempfile.TemporaryDirectory()
        cls.addClassCleanup(scratch.cleanup)
        cls.root = pathlib.Path(scratch.name)
        for part in 'crates', 'docs', 'tools':
            shutil.copytree(ROOT / part, cls.root / part, ignore=shutil.ignore_patterns('out'))
        for part in 'crates.txt', 'include/trackline.h', 'README.md':
            (cls.root / part).parent.mkdir(exist_ok=True)
            shutil.copy(ROOT / part, cls.root / part)

    def setUp(self):
        self.tool = loaded('evidence')
        self.tool.ROOT = self.tool.definitions.ROOT = self.root

    def kept(self, path):
        """A file of the copy, put back behind the test."""
        self.addCleanup(shutil.copy, ROOT / path, self.root / path)
        return self.root / path

    def page(self, name):
        return (self.root / 'docs' / 'evidence' / (name + '.md')).read_text()

    def change(self, path, old, new):
        text = self.kept(path).read_text()
        self.assertEqual(text.count(old), 1, (path, old))
        (self.root / path).write_text(text.replace(old, new))

    def rows(self, name):
        """The rows that the sources make and the page has not, and those that it has and they do not."""
        before, after = self.page(name).splitlines(), self.tool.remade(name, self.page(name)).splitlines()
        return [line for line in after if line not in before], [line for line in before if line not in after]

    def test_nothing_changed(self):
        for name in 'contracts', 'wrong-programs', 'theorems', 'definitions':
            self.assertEqual(self.rows(name), ([], []), name)
        trust = (self.root / 'docs' / 'TRUST.md').read_text()
        self.assertEqual(self.tool.trust(trust), trust)

    def test_a_new_function(self):
        path = self.kept('crates/lent/src/lib.rt')
        path.write_text(path.read_text() + FUNCTION % '// The same. And more.\n')
        new = self.rows('contracts')[0]
        self.assertIn('| `lent::again` | same | `placed_within` | The same |', new)
        self.assertEqual(len(new), 2, 'the row, and the count of the functions')

    def test_a_function_with_attributes(self):
        path = self.kept('crates/lent/src/lib.rt')
        path.write_text(path.read_text() + FUNCTION % '// The same.\n#[tactic(auto, unfolding(crate::specs::Placed::placed_within),\n    using(other::proofs::Placed::same))]\n')
        self.assertIn('| `lent::again` | same | `placed_within` | The same |', self.rows('contracts')[0])

    def test_functions_passed_on_together(self):
        self.change('crates/fit/src/lib.rt', 'pub use packed::track_packed;\n', 'pub use packed::{SHORTEST, track_packed};\n')
        self.assertEqual(self.rows('contracts'), ([], []))

    def test_a_static_library(self):
        path = self.kept('crates.txt')
        for name in 'boundary', 'boundary staticlib', 'boundary staticlib opt_level=3':
            path.write_text(re.sub(r'(?m)^boundary\b[^:\n]*:', name + ':', path.read_text()))
            self.assertEqual(self.rows('contracts'), ([], []), name)

    def test_a_function_passed_on(self):
        self.change('crates/fit/src/lib.rt', 'pub use packed::track_packed;\n', '')
        new, old = self.rows('contracts')
        self.assertEqual([line.split(' | ')[0] for line in old if line.startswith('|')], ['| `fit::track_packed`'])
        self.assertEqual(len(new), 1, 'the count of the functions')

    def test_a_function_without_words(self):
        path = self.kept('crates/lent/src/lib.rt')
        path.write_text(path.read_text() + FUNCTION % '')
        self.assertEqual([fault.partition(': ')[2] for fault in self.tool.faults('contracts', self.tool.remade('contracts', self.page('contracts')))],
                         ['no words for `lent::again`'])

    def test_another_clause(self):
        self.change('crates/line/src/lib.rt', 'ensures accurate {', 'ensures near {')
        new, old = self.rows('contracts')
        self.assertEqual([line.replace('near', 'accurate', 1) for line in new], old)

    def test_edits(self):
        self.change('crates/lent/must-fail/never_put.edit', '# ', '# not ')
        new, old = self.rows('wrong-programs')
        self.assertEqual([line.replace('| not ', '| ') for line in new], old)
        (self.root / 'crates/lent/must-fail/never_put.edit').unlink()
        self.assertEqual((self.rows('wrong-programs')[0], len(self.rows('wrong-programs')[1])), ([], 1))

    def test_an_edit_in_a_method(self):
        self.change('crates/characters/src/lib.rt', 'fn longest(', 'fn longest_text(')
        new, old = self.rows('wrong-programs')
        self.assertEqual([line.replace('`Form::longest_text`', '`Form::longest`') for line in new], old)
        self.assertEqual([line.split('`')[1] for line in new], ['length_141', 'old_comment_of_27_bytes'])

    def test_an_edit_in_a_trait_s_function(self):
        self.change('crates/linefile/src/walk.rt', 'fn next(', 'fn following(')
        new, old = self.rows('wrong-programs')
        self.assertEqual([line.replace('`Walk::following`', '`Walk::next`') for line in new], old)
        self.assertEqual([line.split('`')[1] for line in new], ['earlier_is_level', 'equal_lines_twice'])

    def test_an_edit_above_a_function(self):
        path = self.kept('crates/lent/src/lib.rt')
        path.write_text(path.read_text() + FUNCTION % '// The same.\n#[tactic(auto,\n    using(other::proofs::Placed::same))]\n')
        for old in 'The same.', 'other::proofs', '    a\n}\n':
            self.assertEqual(self.tool.changed(path, [(old, 'another')]), ['again'], old)

    def test_an_edit_of_two_functions(self):
        path = self.root / 'crates/delays/src/write.rt'
        self.assertEqual(self.tool.changed(path, [('file, groups);', ''), ('groups + 4', ''), ('&store.bytes[groups..]', '')]), ['put_dates', 'longer'])
        # what the pair before it has written
        self.assertEqual(self.tool.changed(path, [('file, groups);', 'there'), ('there', 'here')]), ['put_dates'])

    def test_a_function_of_a_trait(self):
        self.change('crates/linefile/src/walk.rt', 'ghost next_gives = {', 'ghost gives = {')
        new, old = self.rows('contracts')
        self.assertEqual([line.replace('| gives,', '| next_gives,') for line in new], old)
        self.assertEqual([line.split(' | ')[:3] for line in old], [['| `linefile::Walk::next`', 'next_gives, remaining', '`step_map` `steps`']])

    def test_a_theorem_that_moves(self):
        tracks = self.kept('crates/offset/proofs/Tracks.antt')
        moved = tracks.rename(tracks.with_name('Moves.antt'))
        self.addCleanup(moved.unlink)
        new, old = self.rows('theorems')
        self.assertEqual([line.replace('offset/Moves', 'offset/Tracks') for line in new], old)
        self.assertEqual(len(new), 2)

    def test_a_theorem_that_goes(self):
        self.kept('crates/offset/proofs/Tracks.antt').unlink()
        found = list(self.tool.faults('theorems', self.tool.remade('theorems', self.page('theorems'))))
        self.assertEqual([fault.partition(': ')[2] for fault in found], ['no one place of `offset-moves`', 'no one place of `difference-stays`'])

    def test_definitions(self):
        self.change('crates/exact/specs/Line.antt', 'pub record LeastLine', 'unfoldable pub one : ℕ\none = 1\n\npub record LeastLine')
        self.assertEqual(len(self.rows('definitions')[0]), 2, 'its crate and the sum')
        ran = self.checked()
        self.assertEqual((ran.returncode, ran.stdout), (1, 'definitions: 4 numbers and a quotation, 1 missing\n'))

    def test_what_accuracy_rests_on(self):
        self.change('crates/exact/specs/Line.antt', 'sum n (λ j. squared', 'sum n (λ j.\n    squared')
        self.assertEqual(len(self.rows('definitions')[0]), 3, 'its crate, the sum and its module')
        # all lines, those of Track's promise, and those of which some serve both sides
        self.assertEqual(self.checked().stdout, 'definitions: 4 numbers and a quotation, 3 missing\n')

    def test_another_quotation(self):
        self.change('crates/exact/specs/Line.antt', 'pub positive : pos 0 <ℤ d', 'pub above : pos 0 <ℤ d')
        self.assertEqual(self.checked().stdout, 'definitions: 4 numbers and a quotation, 1 missing\n')

    def checked(self):
        return subprocess.run([str(self.root / 'tools/definitions'), '--check', str(self.root / 'docs/TRUST.md')], capture_output=True, text=True)

    def test_counts(self):
        """What is counted takes the place of what stands there."""
        self.tool.test_counts = lambda: [('tests/c', r'\d+ tests', '7 tests')]
        text = '| test | what it compares | how much |\n|---|---|---|\n| tests/c | all | 6 tests |\n| tests/d | all | 6 tests |\n'
        self.assertEqual(self.tool.remade('tests', text), text.replace('6', '7', 1))

    def test_wide_cells(self):
        self.assertEqual(list(self.tool.faults('tests', '| %s | a |\n' % (119 * 'a'))), [])
        self.assertEqual(list(self.tool.faults('tests', '| %s | a |\n' % (120 * 'a'))), ['1: a cell of 120 characters'])


if __name__ == '__main__':
    unittest.main()
