#!/usr/bin/env python3
"""Tests of tools/clauses, on a small tree of its own.

    python3 tests/clauses/test_clauses.py
"""
import pathlib
import subprocess
import sys
import tempfile
import unittest

ROOT = pathlib.Path(__file__).resolve().parents[2]
TREE = {
    'crates/fit/specs/Track.antt': '''-- A module.
unfoldable pub track_rule : Given → Tracked
track_rule g = tracked (track_number g) (results g)

pub record Given : Type 0 where
  pub clock : List ℤ

pub tabulate {ℓ} : {A : Type ℓ} → List A
''',
    'crates/fit/specs/Deep/Inside.antt': 'pub deep : ℕ\n',
    'crates/fit/proofs/Laws.antt': '''use Rattle.fit.specs.Track.{named}
pub sum-place² :
    ℕ
module _ (n : ℕ) where
  pub inner : n ≡ n
  inner = local where
    local : n ≡ n
uses-hidden x = λ (hidden : ℕ). hidden
''',
    'crates/fit/src/lib.rt': '''const WEIGHTS: [i64; 2] = [1, 2];
// fn commented(a: u8) -> u8 ensures { x }
#[tactic(auto, unfolding(crate::specs::Track::track_rule))]
pub fn track(a: &[i64], b: fn(u8) -> u8) -> u32
    requires { All a.now (λ x. record { a = x }) }
    ensures answer { result ≡ record { a = 1 } }
    ensures accurate { result ≡ 0 → Near result }
{
    let Fitted::Line { midpoint } = answer else { return 1; };
    0
}
fn silent(a: u8) -> u8 {
    a
}
''',
    'crates/fit/src/sums.rt': '''fn place(j: usize) -> [i64; 52]
    requires low { 0 ≤ j }
    requires high { j < 52 }
    ensures { Placed result.now j }
{
    0
}
fn lent<'a>(a: &'a [i64], b: &'a [i64]) -> u32
    ensures { result ≡ 0 }
{
    0
}
''',
    'crates/fit/must-fail/first_block_n_times.edit': '# text\n',
    'crates/fit/must-fail/length_779.edit': '# text\n',
    'crates/bench/stdout': 'fit      all -51                  midpoint -1 slope 0\n',
    'tests/reference/src/tests/exact.rs': '#[test]\nfn within() {\n}\nfn helper() {\n}\n',
    'tests/c/boundary_test.c': 'static void corrections(void)\n{\n}\n',
    'tests/boundary/mutants.py': "MUTANTS = [('ties away from zero', 'lib.rs', '', '')]\n",
    'docs/REFUSALS.md': 'text\n',
}
GOOD = ['`def fit/Track track_rule`', '`def fit/Track Given`', '`def fit/Track clock`', '`def fit/Track tabulate`',
        '`def fit/Deep/Inside deep`', '`law fit/Laws sum-place²`', '`law fit/Laws inner`',
        '`fn fit::track answer`', '`fn fit::track accurate`', '`fn fit::place`', '`fn fit::sums::place`', '`fn fit::lent`',
        '`item fit::WEIGHTS` reader', '`code fit/lib.rt let Fitted::Line` reader',
        '`def fit/Track track_rule` `edit fit/length_779`', '`test reference within` test only',
        '`test c corrections` test only', '`bench fit all -51` test only', '`mutant ties away from zero` test only',
        '`file docs/REFUSALS.md` reader', 'reader']
# what stands in a row, and a part of the message
BAD = [
    ('', 'nothing carries it'), ('by the code', 'nothing carries it'), ('`edit fit/length_779`', 'nothing carries it'),
    ('`test reference within`', 'nothing carries it'), ('`file docs/REFUSALS.md`', 'nothing carries it'),
    ('`fn fit::track answer` test only', 'beside a definition'), ('test only', 'without a test'),
    ('`def fit/Track track_rul`', 'no track_rul in module fit/Track'), ('`def fit/Track`', 'no name in module'),
    ('`def fit/Track tracked`', 'no tracked in module'), ('`def fit/Trace track_rule`', 'no module fit/Trace'),
    ('`def fit/Laws inner`', 'no module fit/Laws'), ('`law fit/Track track_rule`', 'no module fit/Track'), ('`law fit/Laws local`', 'no local in module'),
    ('`law fit/Laws named`', 'no named in module'), ('`law fit/Laws hidden`', 'no hidden in module'),
    ('`law fit/Laws uses-hidden`', 'no uses-hidden in module'),
    ('`fn fit::track`', 'no clause without a name'), ('`fn fit::track written`', 'no clause written'),
    ('`fn fit::silent`', 'no clause without a name'), ('`fn fit::commented`', 'no function'),
    ('`fn fit::other::place`', 'no function'), ('`fn line::track answer`', 'no function'),
    ('`item fit::TABLE` reader', 'no struct'), ('`code fit/lib.rt let Fitted::Curve` reader', 'no let Fitted::Curve'),
    ('`code fit/more.rt let` reader', 'no source'), ('`def fit/Track track_rule` `edit fit/length_778`', 'no edit'),
    ('`test reference helper` test only', 'no test'), ('`test c within` test only', 'no test'),
    ('`bench fit all -5` test only', 'no case'), ('`mutant ties` test only', 'no mutant'),
    ('`file docs/NONE.md` reader', 'no file'), ('`edt fit/length_779` reader', 'not a form'),
]


class Clauses(unittest.TestCase):
    def setUp(self):
        scratch = tempfile.TemporaryDirectory()
        self.addCleanup(scratch.cleanup)
        self.root = pathlib.Path(scratch.name)
        for name, text in TREE.items():
            path = self.root / name
            path.parent.mkdir(parents=True, exist_ok=True)
            path.write_text(text)

    def run_on(self, text, *arguments):
        page = self.root / 'page.md'
        page.write_text(text)
        return subprocess.run([sys.executable, str(ROOT / 'tools' / 'clauses'), '--root', str(self.root), *arguments,
                               str(page)], capture_output=True, text=True)

    def page(self, *carriers):
        return '| Clause | What |\n|---|---|\n' + ''.join('| one | %s |\n' % carrier for carrier in carriers)

    def test_everything_found(self):
        ran = self.run_on(self.page(*GOOD))
        references = sum(carrier.count('`') // 2 for carrier in GOOD)
        self.assertEqual((ran.returncode, ran.stdout),
                         (0, 'clauses: %d clauses, %d references, all found\n' % (len(GOOD), references)))

    def test_several_names_at_once(self):
        ran = self.run_on(self.page('`def fit/Track track_rule clock` `law fit/Laws inner sum-place²`',
                                    '`fn fit::track answer accurate` `edit fit/length_779 fit/first_block_n_times`'))
        self.assertEqual((ran.returncode, ran.stdout), (0, 'clauses: 2 clauses, 8 references, all found\n'))
        ran = self.run_on(self.page('`def fit/Track track_rule watch`', '`edit fit/length_779 fit/length_778` reader'))
        self.assertEqual([line.split(': ', 1)[1] for line in ran.stdout.splitlines()],
                         ['`def fit/Track watch`: no watch in module fit/Track',
                          '`edit fit/length_778`: no edit fit/length_778'])

    def test_each_fault_alone(self):
        for carrier, message in BAD:
            ran = self.run_on(self.page('reader', carrier, 'reader'))
            self.assertEqual(ran.returncode, 1, carrier)
            self.assertEqual(len(ran.stdout.splitlines()), 1, ran.stdout)
            self.assertIn('page.md:4: ', ran.stdout)
            self.assertIn(message, ran.stdout)

    def test_a_line_for_each_fault(self):
        ran = self.run_on(self.page(*(carrier for carrier, _ in BAD)))
        self.assertEqual((ran.returncode, len(ran.stdout.splitlines())), (1, len(BAD)))

    def test_rows(self):
        self.assertIn('a row of 3 cells in a table of 2', self.run_on(self.page('reader | reader')).stdout)
        self.assertIn('a clause without a name', self.run_on('| Clause | What |\n|---|---|\n| | reader |\n').stdout)
        self.assertEqual(self.run_on('No table.\n').returncode, 1)

    def test_other_tables_and_texts_are_not_clauses(self):
        other = '| Form | What |\n|---|---|\n| `nothing here` | |\n\nA `word`.\n\n'
        ran = self.run_on(other + self.page('reader'))
        self.assertEqual((ran.returncode, ran.stdout), (0, 'clauses: 1 clauses, 0 references, all found\n'))

    def test_the_column_says_the_form(self):
        head = '| Clause | Definition | Promise and theorem | Wrong programs | Tests |\n|---|---|---|---|---|\n'
        row = '| one | %s | %s | %s | %s |\n'
        good = ('`fit/Track track_rule clock`', '`fit::track answer`, `fit/Laws inner`', '`fit/length_779 first_block_n_times`',
                '`reference within`, `mutant ties away from zero`')
        ran = self.run_on(head + row % good)
        self.assertEqual((ran.returncode, ran.stdout), (0, 'clauses: 1 clauses, 8 references, all found\n'))
        for column, bad, message in ((0, '`fit/Laws inner`', 'no module'), (0, '`fit/Track watch`', 'no watch in module'),
                                     (1, '`fit::track written`', 'no clause written'), (1, '`fit/Track track_rule`', 'no module'),
                                     (2, '`fit/length_779 length_778`', 'no edit fit/length_778'), (3, '`c within`', 'no test')):
            ran = self.run_on(head + row % (*good[:column], bad, *good[column + 1:]))
            self.assertEqual(ran.returncode, 1, bad)
            self.assertIn(message, ran.stdout)

    def test_a_clause_goes_on(self):
        ran = self.run_on(self.page('`edit fit/length_779`') + '| | `fn fit::track answer` |\n')
        self.assertEqual((ran.returncode, ran.stdout), (0, 'clauses: 1 clauses, 2 references, all found\n'))
        ran = self.run_on(self.page('`fn fit::track answer`') + '| | `edit fit/length_778` |\n')
        self.assertIn('page.md:3: `edit fit/length_778`: no edit', ran.stdout)

    def test_wide_cells(self):
        self.assertEqual(self.run_on(self.page('reader' + 113 * '.')).returncode, 0)
        self.assertIn('page.md:3: a cell of 120 characters', self.run_on(self.page('reader' + 114 * '.')).stdout)

    def test_write(self):
        head = '| Clause | Definition | Wrong programs |\n|---|---|---|\n'
        many = ', '.join(['`def fit/Track track_rule clock`'] * 5)
        after = 'Some text.\n\n' + head + ('| one | %s | `fit/length_779 first_block_n_times` |\n| | %s | |\n| two | reader | |\n'
                                         % tuple(', '.join(['`fit/Track track_rule clock`'] * k) for k in (4, 1)))
        before = 'Some text.\n\n' + head + ('| one | %s | `edit fit/length_779`, `edit fit/first_block_n_times` |\n| two | reader | |\n' % many)
        for text in before, after:
            self.assertEqual(self.run_on(text, '--write').returncode, 0)
            self.assertEqual((self.root / 'page.md').read_text(), after)

    def test_list(self):
        ran = self.run_on(self.page('reader `edit fit/length_779`'), '--list', 'edits')
        self.assertEqual((ran.returncode, ran.stdout), (0, 'fit/first_block_n_times\n'))


if __name__ == '__main__':
    unittest.main()
