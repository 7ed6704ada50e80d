"""Holds the figures of a paper against those that are worked out anew, for tools/lastdigit, tools/offset and tools/roof.

What a paper has of its own stands in a module beside this one: PARTS, its sentences with names in place of the figures and a
function that works these out, ROWS, the functions that make the rows of its tables, and NAMES, digits that are no figures. The paper
has to have each sentence and each row, and every digit of its prose has to stand in one or between backquotes. So a figure that is wrong is named, and so is one that nobody works out. Prose is what
stands in no code block and is not indented; what is typed and printed there is run by the tests.
"""
import collections
import decimal
import pathlib
import re
import sys

# what makes a sentence behind it a part of another figure
BEFORE = tuple('0123456789.')


def read(document):
    """The rows of the code blocks by the names of their fences, and the rows of the prose."""
    code, prose, fence = collections.defaultdict(list), [], None
    for row in document.splitlines():
        if row.startswith('```'):
            fence = row if fence is None else None
        elif fence is not None:
            code[fence[3:]].append(row)
        elif not row.startswith('    '):
            # a list's own numbers are no figures
            prose.append(re.sub(r'^\d+\. ', '', row))
    return code, prose


def filled(sentences, figures):
    """The sentences with their figures; one that no sentence has would be worked out for nothing."""
    named = {name for sentence in sentences for name in re.findall(r'\{(\w+)\}', sentence)}
    assert named == set(figures), named ^ set(figures)
    return [sentence.format_map(figures) for sentence in sentences]


def check(prose, wanted):
    """How many figures the rows have, and what is wrong with them."""
    text = ' '.join(' '.join(prose).split())
    covered, faults = [found.span() for found in re.finditer(r'`[^`]*`', text)], []
    for sentence in wanted:
        spans = [found.span() for found in re.finditer(re.escape(sentence) + r'(?![\d/])', text)
                 if text[found.start() - 1:found.start()] not in BEFORE]
        covered += spans
        if not spans:
            faults.append('not in the prose: %s' % sentence)
    figures = list(re.finditer(r'\d+(?:\.\d+)?', text))
    for figure in figures:
        if not any(start <= figure.start() and figure.end() <= end for start, end in covered):
            around = text[max(0, figure.start() - 30):figure.end() + 30]
            faults.append('not worked out: %s in "..%s.."' % (figure.group(), around))
    return len(figures), faults


def decimals(fraction, places=None):
    """A fraction in full, where it has a finite decimal form, or to so many places."""
    value = decimal.Decimal(fraction.numerator) / fraction.denominator
    return format(value.normalize(), 'f') if places is None else '{:.{}f}'.format(value, places)


def phrases(paper, *given):
    """Everything that a paper has to have: its sentences with their figures, the rows of its tables, and names that have digits."""
    made = [filled(sentences, figures(*given)) for sentences, figures in paper.PARTS]
    return [*(sentence for part in made for sentence in part), *(row for rows in paper.ROWS for row in rows(*given)), *paper.NAMES]


def told(tool, path, paper, *given):
    """Says what is wrong with a paper, and how many figures it has; the exit status of the tool."""
    figures, faults = check(read(pathlib.Path(path).read_text())[1], phrases(paper, *given))
    for fault in faults:
        print('%s: %s: %s' % (tool, path, fault), file=sys.stderr)
    print('%s: %s: %d figures, %d wrong or not checked' % (tool, path, figures, len(faults)))
    return 1 if faults else 0
