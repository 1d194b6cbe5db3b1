#!/usr/bin/env python3
"""side_by_side.py OLD NEW prints the public signatures, clauses, types, invariants and definitions in which two checkouts differ, old and new, as markdown:
the last section of docs/DESIGN-PASS.md."""
import glob, os, re, sys, collections
old, new = sys.argv[1], sys.argv[2]
def src(root):
    out = collections.OrderedDict()
    types = collections.OrderedDict()
    for path in sorted(glob.glob(root + '/crates/*/src/*.rt')):
        crate = path.split('/crates/')[1].split('/')[0]
        lines = open(path).read().split('\n')
        owner = ''
        i = 0
        test = path.endswith('tests.rt')
        while i < len(lines):
            ln = lines[i]
            if re.match(r'^(pub(\(crate\))? )?(impl|trait)\b', ln):
                owner = re.sub(r'\s*\{.*$', '', ln)
                m = re.match(r'impl(?:<.*?>)? (?:(\S+?)(?:<.*>)? for )?(\w+)', owner)
                if m: owner = (m.group(1) + ' for ' if m.group(1) else '') + m.group(2)
                m2 = re.match(r'(?:pub )?trait (\w+)', ln)
                if m2: owner = 'trait ' + m2.group(1)
                # trait or impl ghost members
            elif ln and not ln.startswith(' ') and not ln.startswith('}'):
                if not re.match(r'^(//|ghost use|use |#)', ln): owner = owner if ln.startswith(')') else ''
            if re.match(r'^#\[cfg\(test\)\]', ln) and i + 1 < len(lines) and 'mod tests {' in lines[i+1]: test = True
            m = re.match(r'^( *)(pub(?:\(crate\))? )?(?:const )?fn (\w+)', ln)
            if m and not test:
                ind = m.group(1); sig = []
                j = i
                while True:
                    s = lines[j]
                    if j > i and re.match(r'^' + ind + r'\{', s): break
                    if s.rstrip().endswith('{') or s.rstrip().endswith('{}'):
                        if not re.match(r'^ *(requires|ensures)', s):
                            sig.append(re.sub(r'\s*\{(\})?$', '', s)); break
                        # clause whose text ends with {} cannot be
                    sig.append(s)
                    if s.rstrip().endswith(';'): break
                    j += 1
                    if j >= len(lines): break
                text = '\n'.join(x[len(ind):] for x in sig).rstrip()
                text = re.sub(r'\(\n\s+((?:.|\n)*?),?\n\)', lambda q: '(' + re.sub(r',\n\s+', ', ', q.group(1)) + ')', text, count=1)
                pub = bool(m.group(2)) and 'crate' not in m.group(2) or owner.startswith('trait ') or ' for ' in owner
                out[(crate, owner, m.group(3))] = (pub, text)
            m = re.match(r'^(pub(?:\(crate\))? )?(struct|enum|trait|type|const) (\w+)', ln)
            if m and not test:
                j = i; body = [ln]
                der = []
                k = i - 1
                while k >= 0 and lines[k].startswith('#['): der.insert(0, lines[k]); k -= 1
                if '{' in ln and not ln.rstrip().endswith('}') and m.group(2) in ('struct', 'enum', 'trait'):
                    while not re.match(r'^\}', lines[j]): j += 1; body.append(lines[j])
                elif not ln.rstrip().endswith((';', '}')):
                    while not lines[j].rstrip().endswith((';', '}')): j += 1; body.append(lines[j])
                text = '\n'.join(der + [b for b in body if not b.strip().startswith('//')])
                if m.group(2) == 'trait':
                    text = '\n'.join(b for b in text.split('\n') if b.strip())
                types[(crate, m.group(2), m.group(3))] = (bool(m.group(1)) and 'crate' not in (m.group(1) or ''), text)
            i += 1
    return out, types
def defs(root):
    out = collections.OrderedDict()
    for path in sorted(glob.glob(root + '/crates/*/specs/*.antt')):
        crate = path.split('/crates/')[1].split('/')[0]
        cur, name = [], None
        def put():
            if name: out[(crate, name)] = (os.path.basename(path), '\n'.join(l for l in cur if l.strip() and not l.strip().startswith('--')).rstrip())
        for ln in open(path).read().split('\n') + ['--end']:
            m = re.match(r"^(?:abbrev |unfoldable )?(?:pub )?(?:abbrev |record |data |ruleset )*([^\s:(){}=]+)(?= *[:({=])", ln)
            if re.match(r'^(use |pub use|mod |pub mod|syntax )', ln): continue
            if ln and not ln.startswith((' ', '--', '}')) and m and m.group(1) != name and not ln.startswith('unfolding') :
                eq = re.match(r"^([^\s:(){}=]+)", ln)
                if name and eq and eq.group(1) == name: cur.append(ln); continue
                # an equation line of the same name
                put(); cur, name = [ln], m.group(1)
            elif ln == '--end': put()
            else: cur.append(ln)
    return out
of, ot = src(old); nf, nt = src(new)
od, nd = defs(old), defs(new)
norm = lambda s: re.sub(r'\s+', ' ', s)
def block(lang, a, b):
    print('```' + lang); print('-- old' if lang == 'antt' else '// old'); print(a if a else '(none)'); print('-- new' if lang == 'antt' else '// new'); print(b if b else '(gone)'); print('```')
n = collections.Counter()
print('### Public functions\n')
for k in list(of) + [x for x in nf if x not in of]:
    a, b = of.get(k), nf.get(k)
    if a and b and norm(a[1]) == norm(b[1]): continue
    if not ((a and a[0]) or (b and b[0])): continue
    if ' for ' in k[1] and 'ensures' not in ((a or b)[1]) and 'requires' not in ((a or b)[1]): continue
    kind = 'changed' if a and b else ('gone' if a else 'new'); n['function ' + kind] += 1
    print('`%s` %s%s: %s' % (k[0], k[1] + '::' if k[1] else '', k[2], kind)); print(); block('rust', a[1] if a else '', b[1] if b else ''); print()
print('### Types and traits\n')
for k in list(ot) + [x for x in nt if x not in ot]:
    a, b = ot.get(k), nt.get(k)
    if a and b and norm(a[1]) == norm(b[1]): continue
    if not ((a and a[0]) or (b and b[0])): continue
    kind = 'changed' if a and b else ('gone' if a else 'new'); n['type ' + kind] += 1
    print('`%s` %s %s: %s' % (k[0], k[1], k[2], kind)); print(); block('rust', a[1] if a else '', b[1] if b else ''); print()
print('### Definitions and theorems of specs/\n')
for k in list(od) + [x for x in nd if x not in od]:
    a, b = od.get(k), nd.get(k)
    if a and b and norm(a[1]) == norm(b[1]): continue
    kind = 'changed' if a and b else ('gone' if a else 'new'); n['definition ' + kind] += 1
    print('`%s` %s: %s' % (k[0], k[1], kind)); print(); block('antt', a[1] if a else '', b[1] if b else ''); print()
print(dict(n), file=sys.stderr)
