#!/usr/bin/env python3
"""Lists the places of older forms in crates/*/src, by point: python3 tools/places.py [REVISION] [--list].

1  results handed on by a match, an Option that holds a refusal, a bool that is a parameter, a 0 or a largest number that
   stands for none
2  pairs of runs of lines of one shape: `duplicates --most 200` over the same files (not part of this script)
3  while and loop, and for over a range of indices
4  equality, conversion and printing as functions of their own
5  the three facts that many contracts state, and functions of seven parameters or more
6  functions that take three slices or more of numbers or of records
7  branches `else if`
8  lines of proofs/
"""
import collections, re, subprocess, sys

args = [a for a in sys.argv[1:] if not a.startswith('--')]
rev = args[0] if args else None

def run(*command):
    return subprocess.run(command, capture_output=True, check=True).stdout.decode()

def files(suffix, part):
    names = run('git', 'ls-tree', '-r', '--name-only', rev, 'crates') if rev else run('git', 'ls-files', '-co', '--exclude-standard', 'crates')
    for name in names.split():
        if name.endswith(suffix) and '/' + part + '/' in name:
            if rev:
                yield name, run('git', 'show', rev + ':' + name)
            else:
                try:
                    yield name, open(name).read()
                except FileNotFoundError:
                    pass

PATTERNS = [
    (1, 'handed on', r'^\s*(Err\(\w+\)|None) => (return )?(Err\([\w:]+(\(\w+\))?\)|None),?$'),
    (1, 'option of a refusal', r'Option<Refusal>'),
    (1, 'bool parameter', r'^[^/]*\bfn [^{]*\b\w+: bool\b|^\s+\w+: bool,$'),
    (1, 'stands for none', r'//.*(\b0 where|\bor 0\b|\b0 for none)|u32::MAX'),
    (3, 'while, loop', r'^\s*(while|loop)\b'),
    (3, 'for over indices', r'^\s*for \w+ in [\w.() +/*]*\.\.'),
    (4, 'own equality', r'\bfn (is_(rack|bar|link|near|tight|far|marked|max)|same\w*|one_if\w*)\('),
    (4, 'own conversion', r'\bfn (code|from_code|letter|number|feature|mark|role_named|kind_named|standing_after|as_code|label_of)\(self|\bfn (from_code|role_named|kind_named|standing_after)\('),
    (4, 'own printing', r'\bfn (\w+_text|\w+_word|letters|spelled|spell_\w+)\('),
    (5, 'at most 128 points, 1,024 runs', r'requires.*(length points\.now ≤ 128|length runs\.now ≤ 1024|points ≤ 128|runs ≤ 1024)'),
    (5, 'chained arcs', r'requires.*\bChained\b'),
    (5, 'capacity kept', r'ensures.*vec_capacity \S+\.new ≡ vec_capacity'),
    (7, 'else if', r'\} else if '),
]

found = collections.OrderedDict()
for name, text in files('.rt', 'src'):
    for point, what, pattern in PATTERNS:
        for number, line in enumerate(text.split('\n'), 1):
            if re.search(pattern, line):
                found.setdefault((point, what), []).append('%s:%d' % (name, number))
    for match in re.finditer(r'\bfn (\w+)[^({]*\(([^{]*?)\)\s*(->|\n|\{|where|requires|ensures)', text):
        parameters = [p for p in re.split(r',(?![^<\[(]*[>\])])', match.group(2)) if p.strip()]
        number = text.count('\n', 0, match.start()) + 1
        slices = [p for p in parameters if re.search(r': &(mut )?\[', p)]
        if len(parameters) >= 7:
            found.setdefault((5, 'seven parameters or more'), []).append('%s:%d' % (name, number))
        if len(slices) >= 3:
            found.setdefault((6, 'three slices or more'), []).append('%s:%d' % (name, number))
lines = collections.Counter()
for name, text in files('.antt', 'proofs'):
    lines[name.split('/')[1]] += text.count('\n')
for (point, what), places in sorted(found.items()):
    print('%d  %-32s %4d' % (point, what, len(places)))
    if '--list' in sys.argv:
        for place in places:
            print('      ' + place)
print('8  %-32s %4d' % ('lines of proofs', sum(lines.values())))
