#!/usr/bin/env python3
"""uncited.py ROOT lists the lemmas and definitions of proofs/*.antt and specs/*.antt that nothing cites, by their names alone."""
import glob, os, re, sys, collections
root = sys.argv[1]
files = [f for f in glob.glob(root + '/crates/*/**/*.antt', recursive=True) if '/out/' not in f] + glob.glob(root + '/crates/*/src/*.rt')
text = {f: open(f).read() for f in files}
tok = re.compile(r"[^\s(){}\[\],;.:=λ→|`\"⟦⟧]+")
decls = []
for f in files:
    if not f.endswith('.antt'): continue
    if not re.search(r'/(proofs|specs)/[^/]+\.antt$', f) or f.endswith('/Lib.antt'): continue
    for m in re.finditer(r"^(?:abbrev |unfoldable )?(?:pub )?(?:abbrev |record |data |ruleset )*([^\s:(){}=]+)(?= *[:({=])", text[f], re.M):
        n = m.group(1)
        if n in ('use', '--', 'where', 'unfolding', 'syntax', 'mod', 'pub'): continue
        decls.append((f, n))
# per file blocks
def split(t):
    parts, cur, name = [], [], None
    for ln in t.split('\n'):
        m = re.match(r"^(?:abbrev |unfoldable )?(?:pub )?(?:abbrev |record |data |ruleset )*([^\s:(){}=]+)(?= *[:({=])", ln)
        if m and not ln.startswith('--') and not ln.startswith('use ') and m.group(1) != name:
            parts.append((name, '\n'.join(cur))); cur, name = [], m.group(1)
        if ln.startswith('use ') or ln.startswith('pub use'): continue
        cur.append(re.sub(r'--.*', '', ln))
    parts.append((name, '\n'.join(cur)))
    return parts
users = collections.defaultdict(set)
for f in files:
    for name, body in (split(text[f]) if f.endswith('.antt') else [(None, text[f])]):
        for t in set(tok.findall(body)):
            users[t].add((f, name))
dead = set()
while True:
    new = set()
    for f, n in set(decls):
        if (f, n) in dead: continue
        if not [u for u in users[n] if u != (f, n) and u not in dead and not (u[1] == n and False)]:
            new.add((f, n))
    if not new: break
    dead |= new
for f, n in sorted(dead): print(os.path.relpath(f, root), n)
print(len(dead))
