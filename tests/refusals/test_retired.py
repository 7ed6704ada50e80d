#!/usr/bin/env python3
"""That 10 is retired and not used again (document 02, Job 14): no rule, no code, no table and no document gives it to anything.

    python3 tests/refusals/test_retired.py

Read are the numbers that rules, code, header, card, manual pages and the other implementations give, those that C programs try, and the orders as
lists of numbers. In documents, manual pages and comments each sentence with a 10 that is no count has to say that it is retired, or is named here as an
exception; so is the one place that tries it, to say that it is retired. Of other texts only the phrases in SPOKEN are looked for. A number that is computed is out of reach. Changed copies show that each is looked at.
"""
import pathlib
import re
import unittest

ROOT = pathlib.Path(__file__).resolve().parents[2]
RETIRED = 10
SAID = re.compile(r'\bretired\b')

# the places where numbers are given: their files, and how a number stands there
PLACES = {
    'rules': ('crates/*/specs/**/*.antt', r'\b(\d+) when\b|\.Refused (\d+)\b|\bnumber = (\d+)\b|(?m:^paper_number Refusal\.\w+ = (\d+)$)'),
    'code': ('crates/*/src/**/*.rt', r'(?m)^    [A-Z]\w+ = (\d+)(?:_?u\d+)?,$|\b(?:when|[Rr]efused)\((\d+)(?:_?u\d+)?\b|\b(?:number|refusal): (\d+)(?:_?u\d+)?\b|\breturn (\d+)(?:_?u\d+)?;'),
    'header': ('include/trackline.h', r'\bX\((\d+),|\bTRACKLINE_\w+ = (\d+)\b'),
    'card': ('docs/REFUSALS.md', r'(?m)^\| (\d+) \|'),
    'pages': ('man/*.[1-8]', r'(?m)^\.B (\d+)$'),
    'plain Rust': ('tests/reference/src/*.rs', r'\b(?:Err|ok_or)\((\d+)(?:_?u32)?\)|\bnumber: (\d+)\b|\breturn (\d+);'),
    'plain Rust written for speed': ('tests/fast/src/*.rs', r'\b(?:Err|ok_or)\((\d+)(?:_?u32)?\)|\bnumber: (\d+)\b|\breturn (\d+);'),
    'tool': ('tools/lastdigit', r'(?m)^ +(?:tests = \[)?\((\d+), |\breturn (\d+)$'),
}
# what C programs try, and what a header defines; some numbers there are other things, so 10 alone is looked for
TRIED = re.compile(r'\bcase (\d+)[uUlL]*\s*:|\b(?:refusal|number|answer)\w* *[=!]= *(\d+)\b')
DEFINED = re.compile(r'(?m)^ *# *define +(\w+) +\(?(\d+)[uUlL]*\)?(?:\s|$)')
# where a program tries 10 to say that it is retired, and nothing else of it
TOLD = {'cggtts/messages.c': 'number == 10 ? "the number is retired" :'}
C = ('include/*.h', 'cggtts/*.[ch]', 'examples/*.c')
ORDERS = ('docs/REFUSALS.md', 'man/trackline.3', 'include/trackline.h')
ORDER = re.compile(r'\d+(?:(?:,|,? and|,? or|,? then)\s\d+)+')

# prose: documents and manual pages whole, of these others the comments
DOCUMENTS = ('README.md', 'docs/*.md', 'docs/evidence/*.md', 'man/*.[1-8]')
COMMENTS = {'.h': r'(?s)/\*.*?\*/', '.c': r'(?s)/\*.*?\*/', '.antt': r'(?m)(?:^ *--.*\n)+|--.*', '.rt': r'(?m)(?:^ *//.*\n)+|//.*'}
# the laws of whole and exact are no proofs of code
COMMENTED = C + ('crates/*/specs/**/*.antt', 'crates/whole/proofs/**/*.antt', 'crates/exact/proofs/**/*.antt', 'crates/*/src/**/*.rt')
# a 10 that is no part of a name or of a longer number, and is no count by the word beside it
UNITS = r' (?:ps|ns|µs|ms|blocks|bytes|entries|times)\b'
BARE = re.compile(r'(?<![\w^-])(?<!\d[.,:])(?<!Job )10(?![\w^⁰¹²³⁴-⁹-]|[.,:]\d| ?\(n| [x×^]| \d{3}\b|%s)' % UNITS)
# a document whose cells of digits alone are measured times
TIMES = 'docs/SPEED.md'
# sentences with another 10, by a part of each
EXCEPTIONS = {
    'docs/ARCHITECTURE.md': ('| 10 | `labels::refusal`', 'rooms 10 to 12'),
    'docs/CLAUSES.md': ('`mutant 10 for the largest values',),
    'docs/DECISIONS.md': ('**10.** The contract of an answer is its reply', '`steps` is one definition, 10,', 'are 10 and 1105 divided by 5'),
    'docs/evidence/definitions.md': ('Characters 10 |',),
    'docs/LAST-DIGIT.md': ('parts of a picosecond that are kept, is 10', '| 10 | 0150 |'),
    'docs/REFUSALS.md': ('without blocks 10 to 39',),
    'docs/SHARED-OFFSET.md': ('| 10 | 1250370 |', 'with 10, 50 and 300 ps more'),
    'man/cggtts.1': ('700 written, 10 equal to a written one', '($4/10)'),
    'cggtts/picture.c': ('The smallest of 1, 2, 5, 10 .. units',),
    'crates/whole/proofs/Linear/Examples.antt': ('a + b = 10',),
}
# of other texts, how one speaks of 10: behind such a word, or as what it is or does
SPEAKING = ('tools/*', 'crates/*/must-fail/*.edit', 'cggtts/*.[ch]', 'examples/*.c')
SPOKEN = re.compile(r'\b(?:refused|refused with|refusals?|answer(?:s|ed)?(?: with)?|gives|returns|tries|Track) 10(?![\w^]|[.,]\d| [(*/+×-]|%s)'
                    r'|(?<![\w.^×-])10 (?:is|was|can|does|never|means)\b|\b9 and 10\b|\b10 and 11\b' % UNITS)


def names(*forms):
    return [str(path.relative_to(ROOT)) for form in forms for path in sorted(ROOT.glob(form)) if path.is_file()]


NAMES = {place: names(form) for place, (form, _) in PLACES.items()}
FILES = {name: (ROOT / name).read_text() for name in {*names(*DOCUMENTS, *COMMENTED, *SPEAKING), *(name for found in NAMES.values() for name in found)}}


def given(files, place):
    """The numbers that a place gives."""
    found = (match for name in NAMES[place] for match in re.finditer(PLACES[place][1], files[name]))
    return {int(next(filter(None, match.groups()))) for match in found} - {0}


def orders(text):
    """The lists of numbers of a text, what stands in brackets left out."""
    plain = re.sub(r'\s*\n(?: \*)?\s*', ' ', re.sub(r' \([^)]*\)', '', text))
    return [[int(number) for number in re.findall(r'\d+', found)] for found in ORDER.findall(plain)]


def tried(name, text):
    """What a C file has of 10: a case, a comparison, or a name for it."""
    text = text.replace(TOLD.get(name, '\0'), '', 1)
    found = ['tries' for match in TRIED.finditer(text) if str(RETIRED) in match.groups()]
    found += [match[1] for match in DEFINED.finditer(text) if int(match[2]) == RETIRED]
    return ['%s: %s %d' % (name, word, RETIRED) for word in found]


def joined(name, text):
    """The paragraphs, rows and items of a text, or its comments, each in one line."""
    form = COMMENTS.get(pathlib.Path(name).suffix)
    parts = re.findall(form, text) if form else re.split(r'\n\s*\n|\n(?=[|.#-])', re.sub(r'\\f.', '', text))
    return [re.sub(r'\s*\n[ *]*(?:--|//)?\s*', ' ', part) for part in parts]


def unsaid(name, text):
    """The sentences and cells with a 10 that is no count and no exception, and is not said to be retired."""
    found = []
    for part in joined(name, text):
        for known in EXCEPTIONS.get(name, ()):
            part = part.replace(known, '')
        pieces = [piece for piece in re.split(r'(?<=[.!?]) (?=[^a-z])|\|', part) if BARE.search(piece) and not SAID.search(piece)]
        found += [piece for piece in pieces if name != TIMES or not re.fullmatch(r'[ \d.]+', piece)]
    return ['%s: %s' % (name, piece.strip()) for piece in found]


def spoken(name, text):
    """The lines that speak of 10 as a refusal."""
    return ['%s:%d: %s' % (name, at, line.strip()) for at, line in enumerate(text.split('\n'), 1) if SPOKEN.search(line) and not SAID.search(line)]


def faults(files):
    """What gives 10 to anything, or a number that no rule gives."""
    rules = given(files, 'rules')
    found = ['a rule gives %d' % RETIRED] * (RETIRED in rules)
    found += ['%s: %d, which no rule gives' % (place, number) for place in PLACES for number in sorted(given(files, place) - rules)]
    found += ['%s: not %d' % (place, number) for place in ('header', 'card') for number in sorted(rules - given(files, place))]
    found += ['%s: an order %s' % (name, order) for name in ORDERS for order in orders(files[name]) if RETIRED in order]
    for look, at in (tried, names(*C)), (unsaid, names(*DOCUMENTS, *COMMENTED)), (spoken, names(*SPEAKING)):
        found += [line for name in at for line in look(name, files[name])]
    return found


UNCHANGED = set(faults(FILES))


class Retired(unittest.TestCase):
    def test_no_place_gives_it(self):
        self.assertEqual('\n'.join(faults(FILES)), '')

    def test_every_other_number_is_given(self):
        """So that what is read is what is given."""
        rules = given(FILES, 'rules')
        self.assertEqual(rules, set(range(1, max(rules) + 1)) - {RETIRED})
        self.assertEqual([place for place in PLACES if len(given(FILES, place)) < 8], [])

    def test_orders_are_read(self):
        for name in ORDERS:
            self.assertIn([7, 8, 3, 4, 5, 6, 9], orders(FILES[name]), name)
            self.assertIn([12, 14, 13, 7, 8, 9], orders(FILES[name]), name)

    def test_every_exception_stands(self):
        for name, parts in EXCEPTIONS.items():
            for part in parts:
                self.assertTrue(any(part in text for text in joined(name, FILES[name])), (name, part))
        for name, part in TOLD.items():
            self.assertEqual(FILES[name].count(part), 1, (name, part))

    def test_it_is_said(self):
        for name in 'docs/REFUSALS.md', 'include/trackline.h', 'man/trackline.1', 'man/trackline.3':
            self.assertTrue(re.search(r'\b10 is retired and not\s+used again', FILES[name]), name)

    def noticed(self, name, changed, what):
        self.assertGreater(set(faults({**FILES, name: changed})), UNCHANGED, (name, what))

    def test_changed_prose(self):
        for words in ('gives 10', 'is 10', 'has the number 10', 'returns 10', 'is answered 10', 'is refused with 10', 'has a number (10)'):
            self.noticed('docs/HIRE-BLOCK.md', FILES['docs/HIRE-BLOCK.md'].replace('\n\n', '\n\nSuch a block %s.\n\n' % words, 1), words)
        self.noticed('docs/HIRE-BLOCK.md', FILES['docs/HIRE-BLOCK.md'].replace('\n\n', '\n\n10 means a short block.\n\n', 1), '10 means')

    def test_changed_copies(self):
        for name, old, new in (
                ('crates/path/specs/Path.antt', '24 when', '10 when'),
                ('crates/limits/src/refusal.rt', 'Coordinate = 24,', 'Coordinate = 10,'),
                ('crates/limits/src/refusal.rt', '    Length = 11,\n', '    Corrected = 10,\n    Length = 11,\n'),
                ('crates/limits/specs/Numbers.antt', 'Refusal.Coordinate = 24', 'Refusal.Coordinate = 10'),
                ('crates/limits/src/refusal.rt', 'Coordinate = 24,', 'Coordinate = 10_u32,'),
                ('crates/bench/src/document_cases.rt', 'Reply::Refused(8)', 'Reply::Refused(10)'),
                ('include/trackline.h', 'X(11, ', 'X(10, TRACKLINE_CORRECTED, "again") X(11, '),
                ('include/trackline.h', '#define TRACKLINE_MOST_DSG 9999\n', '#define TRACKLINE_MOST_DSG 9999\n#define TRACKLINE_SHORT 10\n'),
                ('include/trackline.h', 'enum trackline_refusal {\n', 'enum trackline_refusal {\n    TRACKLINE_OTHER = 10,\n'),
                ('include/trackline.h', '7, 8, 3, 4, 5, 6, 9.', '7, 8, 10, 3, 4, 5, 6, 9.'),
                ('docs/REFUSALS.md', '\n| 11 |', '\n| 10 | Something else. | Path | |\n| 11 |'),
                ('docs/REFUSALS.md', '\n| 24 |', '\n| 99 |'),
                ('docs/REFUSALS.md', '| 1, 2, 3, 4, 5, 6 |', '| 1, 2, 10, 3, 4, 5, 6 |'),
                ('docs/REFUSALS.md', '| 7, 8, 3, 4, 5, 6, 9 |', '| 7, 8, 3, 4, 5, 6, 10, 9 |'),
                ('docs/REFUSALS.md', '10 is retired and not used again.', '10 is retired and not used again. 10 means a gap.'),
                ('docs/SPEED.md', '\n## ', '\nA block outside its limit gives 10.\n\n## '),
                ('man/trackline.1', '.B 11\n', '.B 10\nSomething else.\n.TP\n.B 11\n'),
                ('man/trackline.3', ', 2, 3, 4', ', 2, 10, 3, 4'),
                ('man/trackline.3', '7, 8, 3', '7, 8, 10, 3'),
                ('man/trackline.3', '7, 8, 3', '7, 8, \\fB10\\fR, 3'),
                ('examples/receiver.c', '\nint main(', '\n/* A block of no labels is 10. */\nint main('),
                ('crates/path/specs/Path.antt', '\n', '\n-- Where it is not, the answer is 10.\n'),
                ('tools/run', '\n', '\n# answers 10 where there is none\n'),
                ('cggtts/check.c', 'case TRACKLINE_LENGTH:', 'case 10:\n    case TRACKLINE_LENGTH:'),
                ('cggtts/messages.c', '"the number is retired"', '"a value is too large"'),
                ('cggtts/messages.c', 'return number == 10 ?', 'return number == 10 ? "" : number == 10 ?'),
                ('tests/reference/src/path.rs', 'Err(24)', 'Err(10)'),
                ('tests/fast/src/path.rs', 'Err(24)', 'Err(10)'),
                ('tools/lastdigit', '(3, beyond(', '(10, False),\n             (3, beyond('),
                ('cggtts/check.c', '9 does not arise', '9 and 10 do not arise')):
            self.assertTrue(old in FILES[name], (name, old))
            self.noticed(name, FILES[name].replace(old, new, 1), new)


if __name__ == '__main__':
    unittest.main()
