#!/usr/bin/env python3
"""Counts the places in crates/*/src/*.rt that docs/DESIGN-PASS.md speaks of, by rules of the text alone. Run it at the top of a checkout;
`--list` prints each place, and `--point N` only those of a point.

1  enums of one or two variants, functions that answer a tuple or a number for a kind or a refusal, and numbers that stand for 'none'
2  functions and types that are like an earlier one: of one name and seven parts of ten the same, or of another name and nine parts of ten, where names of
   types and constants and numbers count as one
3  loops over a range of numbers, and `while`
4  functions that compare, copy, convert or print by hand: an `Ordered` or a bare `match` from values to values, copies number by number
5  facts, of whatever value, in the contracts of three functions or more, and groups of three parameters or more that three functions of a crate share
6  structs that hold a slice or an array with a count beside it
7  functions that match on an enum to choose which function or step to run
8  the answers in proofs/F/Answers.antt, and the lemmas in proofs/*.antt
"""
import collections
import difflib
import glob
import itertools
import os
import re
import sys

FN = re.compile(r'^( *)(pub(?:\(\w+\))? )?(?:const )?fn (\w+)', re.M)


def files():
    return sorted(glob.glob('crates/*/src/*.rt'))


def functions():
    """(file, line, name, signature, body) of each function; a body ends at the brace in the column of its `fn`."""
    for path in files():
        text = open(path).read()
        for m in FN.finditer(text):
            indent = m.group(1)
            end = re.compile(r'^' + indent + r'(\}|\{\})$', re.M).search(text, m.end())
            semicolon = re.compile(r';$', re.M).search(text, m.end())
            brace = re.compile(r'^' + indent + r'\{|\{$|\{\}$', re.M).search(text, m.end())
            if not brace or (semicolon and semicolon.start() < brace.start()):
                continue
            stop = end.end() if end else len(text)
            yield path, text[: m.start()].count('\n') + 1, m.group(3), text[m.start():brace.start()], text[brace.start():stop]


def crate(path):
    return path.split('/')[1]


def bare(body):
    """A body without white space and comments, its numbers and names of constants and types made equal."""
    body = re.sub(r'//.*', '', body)
    body = re.sub(r'\b\d[\d_]*\b', '0', body)
    body = re.sub(r'\b[A-Z]\w*\b', 'T', body)
    return re.sub(r'\s+', '', body)


def point1():
    for path in files():
        text = open(path).read()
        for m in re.finditer(r'^(?:pub(?:\(\w+\))? )?enum (\w+)[^{]*\{(.*?)^\}', text, re.M | re.S):
            variants = re.findall(r'^    (\w+)', m.group(2), re.M)
            if len(variants) <= 2 or re.search(r'\b(Done|NotLoaded|Refused)\b', m.group(2)):
                yield path, text[: m.start()].count('\n') + 1, 'enum ' + m.group(1)
    for path, line, name, signature, body in functions():
        if re.search(r'-> (\(u8|\(usize, \(|u8$|u8 *\n)', signature) and not re.search(r'fn (threshold|field|sheet)\b', signature):
            yield path, line, name + ': a number or a tuple for a kind'
        if re.search(r'\b99\b', body) and 'tests' not in name:
            yield path, line, name + ': a number for none'


def alike(one, other):
    return difflib.SequenceMatcher(None, one, other, autojunk=False).ratio()


def point2():
    texts = []
    for path, line, name, signature, body in functions():
        tokens = re.findall(r'\w+|[^\w\s]', bare(body))
        texts.append((path, line, name, tokens))
    for path in files():
        text = open(path).read()
        for m in re.finditer(r'^(?:pub(?:\(\w+\))? )?(?:enum|struct) (\w+)[^{;]*\{(.*?)^\}', text, re.M | re.S):
            tokens = re.findall(r'\w+|[^\w\s]', bare(re.sub(r'^ *ghost.*', '', m.group(2), flags=re.M)))
            texts.append((path, text[: m.start()].count('\n') + 1, 'type ' + m.group(1), tokens))
    for (n, (path, line, name, tokens)) in enumerate(texts):
        best = (0, None)
        for before in texts[:n]:
            other = before[3]
            namesakes = before[2] == name and len(tokens) > 8
            least = 0.7 if namesakes else 0.9 if min(len(tokens), len(other)) > 24 else 1.1
            if 2 * min(len(tokens), len(other)) < least * (len(tokens) + len(other)):
                continue
            ratio = alike(tokens, other)
            if ratio >= least and ratio > best[0]:
                best = (ratio, before)
        if best[1]:
            yield path, line, '%s is like %s of %s (%d parts of 100)' % (name, best[1][2], best[1][0], 100 * best[0])


def point3():
    for path in files():
        for n, line in enumerate(open(path), 1):
            bare_line = re.sub(r'\[[^\[\]]*\]', '', line)
            if re.search(r'^\s*(for (?!_ )[^{]* in [^{]*\.\.|while |loop )', bare_line):
                yield path, n, line.strip()


def point4():
    for path, line, name, signature, body in functions():
        flat = re.sub(r'\s+', ' ', body)
        loops = re.findall(r'for [^{]*\{ (\w+)\[[^=;]*\] = ([\w\[\] +.*]+); \}', flat)
        if name in ('precedes', 'comes_before', 'is_pair'):
            yield path, line, name + ': a comparison'
        elif any('::' not in right for _, right in loops):
            yield path, line, name + ': a copy'
        elif re.match(r'^\{ match \w+ \{ .* \} \}$', flat) and '(' not in re.sub(r'\w+::\w+\(\w*\)|(Some|Ok|Err)\((\w*|\(\))\)', '', flat):
            yield path, line, name + ': a conversion'
        elif flat.count('if number ==') > 1 or re.match(r'^\{ if \w+ == \w+ \{ None \} else \{ Some\(\w+\) \} \}$', flat):
            yield path, line, name + ': a conversion'


def point5():
    facts, groups = collections.defaultdict(set), collections.defaultdict(set)
    for path, line, name, signature, body in functions():
        for m in re.finditer(r'^ *(?:requires|ensures)(?: \w+)? \{ (.*) \}$', signature, re.M):
            fact = re.sub(r'(?<![\w.])(?!F\.)[a-z]\w*(\.\w+)*\.(old|new|now|entry)(\.\w+)*', 'x', m.group(1))
            facts[re.sub(r'(?<![\w.])result\b', 'x', fact)].add((path, line, name))
        inside = re.search(r'\(((?:[^()]|\([^()]*\))*)\)', signature)
        names = sorted({p.split(':')[0].strip() for p in re.split(r',\s*(?![^<]*>)', inside.group(1)) if ':' in p}) if inside else []
        for trio in itertools.combinations(names, 3):
            groups[crate(path), trio].add((path, line, name))
    for fact, users in sorted(facts.items()):
        if len(users) >= 3:
            yield '%d functions in %s' % (len(users), ' '.join(sorted({crate(u[0]) for u in users}))), 0, 'fact ' + fact
    largest = {}
    for (where, trio), users in groups.items():
        if len(users) >= 3:
            largest.setdefault((where, frozenset(users)), set()).update(trio)
    for (where, users), names in sorted(largest.items(), key=lambda g: (g[0][0], sorted(g[1]))):
        yield 'crates/' + where, len(users), 'parameters ' + ', '.join(sorted(names))


def point6():
    for path in files():
        text = open(path).read()
        for m in re.finditer(r'^(?:pub(?:\(\w+\))? )?struct (\w+)[^{;]*\{(.*?)^\}', text, re.M | re.S):
            fields = re.sub(r'^ *ghost.*', '', m.group(2), flags=re.M)
            if re.search(r': (&[^,]*)?\[', fields) and re.search(r'\b(len|count|d|width|length|degree|places|threshold): usize', fields):
                yield path, text[: m.start()].count('\n') + 1, 'struct ' + m.group(1)


def point7():
    for path, line, name, signature, body in functions():
        flat = re.sub(r'\s+', ' ', body)
        calls = re.findall(r'(?:=>|\) *\{|== \w+::\w+\(\) \{ return) \{? ?(\w+)(?:::<\w+>)?\(', flat)
        calls = [c for c in calls if c not in ('Some', 'Ok', 'Err', 'refused', 'write', 'writeln')]
        if ('match ' in flat or flat.count('if number ==') > 1) and len(calls) >= 2:
            yield path, line, name


def point8():
    for path in sorted(glob.glob('crates/*/proofs/**/Answers.antt', recursive=True)):
        text = open(path).read()
        yield path, 0, str(len(re.findall(r'^(?:pub )?[\w\'-]+ : goal\.', text, re.M))) + ' answers'
    for path in sorted(glob.glob('crates/*/proofs/*.antt')):
        if os.path.basename(path) != 'Lib.antt':
            yield path, 0, 'lemmas'


def main():
    only = int(sys.argv[sys.argv.index('--point') + 1]) if '--point' in sys.argv else None
    for n, point in enumerate([point1, point2, point3, point4, point5, point6, point7, point8], 1):
        if only in (None, n):
            found = list(point())
            print(f'point {n}: {len(found)}')
            if n == 8:
                answers = sum(int(what.split()[0]) for _, _, what in found if what.endswith('answers'))
                print(f'  files of answers {sum(what.endswith("answers") for _, _, what in found)}, answers {answers}, files of lemmas {sum(what == "lemmas" for _, _, what in found)}')
            if '--list' in sys.argv:
                for path, line, what in found:
                    print(f'  {path}:{line}: {what[:200]}')


main()
