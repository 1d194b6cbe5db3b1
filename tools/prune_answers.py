#!/usr/bin/env python3
"""prune_answers.py CRATE_DIR leaves out of each proofs/F/Answers.antt what the check finds alone. All files are set aside; where a check names goals that
stay open, the answers to these alone (with the file's own lemmas that they name) are put back, or the whole file where that does not prove.
The answers of tests stay, since `rt check` does not try them."""
import os, re, subprocess, sys
os.chdir(sys.argv[1])
runs = [0]
def check():
    runs[0] += 1
    return subprocess.run(['rt', 'check'], stdout=subprocess.PIPE, stderr=subprocess.STDOUT, text=True).stdout
def ok(out):
    return 'logic=proved' in out and 'logic=not-proved' not in out and 'did not build' not in out
def blocks(text):
    """the head (imports, comments) and the top-level declarations as (name, lines)"""
    lines = text.split('\n')
    out, cur, name, head, pend = [], [], None, [], []
    for ln in lines:
        m = re.match(r"^(?:abbrev |unfoldable |ruleset )*(?:pub )?(?:abbrev |ruleset )?([^\s:(){}]+)\s*:", ln)
        eq = re.match(r"^([^\s:(){}]+)(\s|$)", ln)
        if ln.startswith('use ') or ln.startswith('syntax ') or ln.startswith('ghost use'):
            if name is None: head.append(ln)
            else: cur.append(ln)
            continue
        if m and not ln.startswith('--') and not ln.startswith(' '):
            if name is not None: out.append((name, cur))
            elif cur: head += cur
            name, cur = m.group(1), pend + [ln]; pend = []
        elif ln.startswith('--'):
            pend.append(ln)
        else:
            if pend: cur += pend; pend = []
            cur.append(ln)
    if name is not None: out.append((name, cur + pend))
    else: head += cur + pend
    return head, out
def pruned(text, need):
    head, decls = blocks(text)
    names = [n for n, _ in decls]
    keep = set(n for n in names if n in need)
    if not set(need) <= keep: return None
    changed = True
    while changed:
        changed = False
        for n, ls in decls:
            if n in keep:
                body = '\n'.join(l for l in ls if not l.startswith('--'))
                for o in names:
                    if o not in keep and re.search(r"(?<![\w'.-])" + re.escape(o) + r"(?![\w'-])", body):
                        keep.add(o); changed = True
    out = '\n'.join(head).rstrip('\n') + '\n\n' + '\n'.join('\n'.join(ls).strip('\n') + '\n' for n, ls in decls if n in keep)
    return out.rstrip('\n') + '\n'
files = []
for d, _, names in os.walk('proofs'):
    if 'Answers.antt' in names and '/tests' not in d: files.append(os.path.join(d, 'Answers.antt'))
if not ok(check()): sys.exit('does not prove to begin with: ' + os.getcwd())
texts = {f: open(f).read() for f in files}
for f in files: os.remove(f)
state = {f: 'gone' for f in files}
for _ in range(40):
    out = check()
    if ok(out): break
    moved = False
    for m in re.finditer(r'no proof: expected answers in \./(proofs/\S+/Answers\.antt)[^\n]*?did not prove ((?:`[^`]+`(?:, )?)+)', out):
        f, need = m.group(1), re.findall(r'`([^`]+)`', m.group(2))
        if f in state and state[f] == 'gone':
            new = pruned(texts[f], need)
            open(f, 'w').write(new or texts[f]); state[f] = 'pruned' if new and new != texts[f] else 'whole'; moved = True
        elif f in state and state[f] == 'pruned':
            open(f, 'w').write(texts[f]); state[f] = 'whole'; moved = True
    if not moved:
        bad = [f for f in files if state[f] != 'whole' and re.search(re.escape(os.path.dirname(f)) + r'/Answers', out)]
        if not bad: bad = [f for f in files if state[f] == 'pruned'] or [f for f in files if state[f] == 'gone']
        if not bad: sys.exit('stuck\n' + out[-3000:])
        for f in bad: open(f, 'w').write(texts[f]); state[f] = 'whole'
else: sys.exit('no end')
old = sum(len(t.splitlines()) for t in texts.values())
new = sum(len(open(f).read().splitlines()) for f in files if os.path.exists(f))
count = lambda t: len(re.findall(r"^pub \S+ : goal\.", t, re.M))
print(os.path.basename(os.getcwd()), 'checks', runs[0], 'files', len(files), 'gone', sum(s == 'gone' for s in state.values()), 'shorter', sum(s == 'pruned' for s in state.values()),
      'lines', old, '->', new, 'answers', sum(count(t) for t in texts.values()), '->', sum(count(open(f).read()) for f in files if os.path.exists(f)))
