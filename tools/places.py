#!/usr/bin/env python3
"""Counts the places of the design pass (docs/DESIGN-PASS.md) in the sources: older forms for which today's Rattle has plainer ones.

    tools/places.py [-l] [POINT ..]    at the top of a checkout; -l lists each place as file:line

It goes by text, so it finds what looks like a place: the page says of each that is left why it stays.
"""
import collections
import glob
import re
import sys

SOURCES = sorted(glob.glob('crates/*/src/**/*.rt', recursive=True))


def lines(pattern, keep=lambda path, line: True):
    """Each line of the sources, comments left out, that matches."""
    found = []
    for path in SOURCES:
        for number, line in enumerate(open(path), 1):
            code = line.split('//')[0].rstrip('\n')
            if re.search(pattern, code) and keep(path, code):
                found.append((path, number, code.strip()))
    return found


def items(head):
    """(path, line, head, body) of each item whose head matches, the body up to the brace that ends it."""
    for path in SOURCES:
        text = open(path).read()
        for match in re.finditer(head, text, flags=re.M):
            end = text.find('\n}\n', match.end())
            yield path, text.count('\n', 0, match.start()) + 1, match.group(0), text[match.end():end]


def own_results():
    """Enums with a variant for a refusal, for nothing or for what is not so."""
    words = r'^\s+(No|Wrong|Bad)\b|^\s+(Absent|Not|Free|Stop|None|Good\(.*\)),$'
    return [(p, n, h.strip()) for p, n, h, body in items(r'^(?:pub(?:\(crate\))? )?enum \w+[^{]*\{\n')
            if re.search(words, body, flags=re.M)]


def flags_beside():
    """Structs with an answer, or a test that was made, beside the value that it speaks of."""
    return [(p, n, h.strip()) for p, n, h, body in items(r'^(?:pub(?:\(crate\))? )?struct \w+[^{;(]*\{\n')
            if re.search(r'^\s+(pub(\(crate\))? )?(answer|readable|whole|end|verb|slice): ', body, flags=re.M)
            and not re.search(r'end: (Pos|u32|usize)', body)]


def numbers_for_kinds():
    """Constants and fields that are numbers and stand for a kind, a state, or for nothing."""
    return (lines(r'^(pub(\(crate\))? )?const [A-Z_]+: u(8|64) = (\d+|0x[0-9a-f_]{9,});')
            + lines(r'^\s+pub (operation_mode|direction|usage_type|enable|topic|verb|slice|fills|status|kind): u\d+')
            + lines(r'const (NOWHERE|NOT_READ|UNREADABLE)\b'))


def index_loops():
    """`while` and `loop`: an index, a count or a place is moved by hand."""
    return lines(r'^\s*(while|loop)\b')


def by_hand():
    """Smaller and larger of two, differences that stop at 0, tests and numbers turned into wider numbers, bytes of numbers, rows of numbers, copies."""
    return (lines(r'^\s*(pub(\(crate\))? )?fn (lesser|larger|less|monus|left|remaining|later|worse|same|flag|wide8|wide16|front\w*|back|copy_in|copy_out|join16|join32|number|values|\w+_row|digit|nibble|glyph|hex_digit|letter|eight|name)\(')
            + lines(r'/ (256|65536|16777216) % 256|% 256\) as u8')
            + lines(r'std::num::wrapping_\w+|wrapping_\w+_u(8|32|size)'))


def repeated_facts():
    """Facts that stand in the `requires` of three or more functions, and pairs of parameters that do."""
    facts = collections.defaultdict(list)
    for path, number, code in lines(r'^\s*requires\b'):
        for fact in re.findall(r'\(([^()]*(?:\([^()]*\)[^()]*)*)\)', code) or re.findall(r'\{ (.*) \}', code):
            facts[path.split('/')[1] + ' ' + re.sub(r'\s+', ' ', fact)].append((path, number, fact))
    pairs = collections.defaultdict(list)
    for path in SOURCES:
        text = open(path).read()
        for match in re.finditer(r'\bfn \w+(?:<[^>]*>)?\(([^)]*)\)', text):
            names = [p.strip() for p in match.group(1).split(',') if ':' in p]
            for a, b in zip(names, names[1:]):
                a, b = (re.sub(r"'\w+ |mut ", '', w).split(':')[0] for w in (a, b))
                pairs[path.split('/')[1] + ' ' + a + ', ' + b].append((path, text.count('\n', 0, match.start()) + 1, a + ', ' + b))
    return [places[0][:2] + (f'{len(places)} times: {name}',) for group in (facts, pairs)
            for name, places in sorted(group.items()) if len(places) >= 3]


def lengths_beside():
    """A buffer with a length beside it: a count beside an array, and the front of a lent buffer that a number marks."""
    return (lines(r'^\s+(pub(\(crate\))? )?(items|pdus|states): \[')
            + lines(r'\bfront(_mut|_numbers)?\(')
            + lines(r'let mut \w+ = \[0(u8|u64)?; |let mut \w+ = (longest|bytes)\(\)'))


def switches():
    """A match on a number, a name or a kind that says which step to run, and functions by table."""
    return lines(r'match (name|kind|command|topic|which|digit|v|status)\b') + lines(r'\benum \w*Kind\b')


def proofs():
    """Files of answers and invariants."""
    return [(p, 1, '') for p in sorted(glob.glob('crates/*/proofs/**/*.antt', recursive=True))
            if p.endswith(('/Answers.antt', '/Invariants.antt', '/Proof.antt'))]


POINTS = {
    '1': [own_results, flags_beside, numbers_for_kinds],
    '2': [],
    '3': [index_loops],
    '4': [by_hand],
    '5': [repeated_facts],
    '6': [lengths_beside],
    '7': [switches],
    '8': [proofs],
}


def main(words):
    listed = '-l' in words
    for point in [w for w in words if w in POINTS] or POINTS:
        for count in POINTS[point]:
            found = count()
            print(f'{point} {count.__name__}: {len(found)}')
            if listed:
                for path, number, text in found:
                    print(f'    {path}:{number}: {text}')
    return 0


if __name__ == '__main__':
    sys.exit(main(sys.argv[1:]))
