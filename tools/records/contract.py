#!/usr/bin/env python3
# Of the older kit (rattle-kit-5b-plain): see tools/derive-over-records. The checker proves functions over lent records itself today.
"""contract.py TWIN CRATE FUNCTION ELEM=STRUCT [REQUIRES ENSURES]: prints the contract module of FUNCTION (proofs/Contracts/Function.antt)"""
import sys, re, os
sys.path.insert(0, os.path.dirname(__file__))
from twin import *
twin, crate, fn, es = sys.argv[1:5]
elem, struct = es.split('=')
src = open(f'{twin}/{fn}/Kinds.antt').read()
nm = Names(src, crate)
if crate != 'search_records': nm.home[struct] = 'Rattle·search_records.proofs'
def get(n):
    m = re.search(r'abbrev pub %s : (.*?)\n%s =(.*?)(?=\n\n|\Z)' % (n, n), src, re.S)
    return ' '.join(m.group(1).split()), tidy(' '.join(m.group(2).split()), nm, crate, elem, struct)
ty, ps = get('ps'); _, r = get('r')
n = re.search(r'PK (\d+)', ty).group(1)
code = open(f'{twin}/{fn}.antt').read()
nreq = len(re.findall(r'abbrev pub requires-\d+', code)); nens = len(re.findall(r'abbrev pub ensures-\d+', code))
def chain(k):
    if k == 0: return 'r-top'
    s = '(r-last _)'
    for _ in range(k - 1): s = f'(r-fact _ _ {s})'
    return s[1:-1]
out = []
out.append(f'-- The contract of `{crate}::{fn}`: the kinds of its parameters and of its result, and the reading of its clauses, which are plain facts.')
out.append('-- Assumes nothing.')
mods = {}
def use(mod, *names): mods.setdefault(mod, set()).update(names)
use('mathlib.Core.List', 'List', '[]', '_∷_'); use('mathlib.Core.Path', 'refl'); use('borrow.Fn.Kind', 'PK', 'RK')
use('borrow.Fn.Read', 'all-models'); 
for k in (nreq, nens): use('borrow.Fn.Read', *(['r-top'] if k == 0 else ['r-last'] if k == 1 else ['r-last', 'r-fact']))
body = ps + ' ' + r
for mod, names in nm.used.items():
    for x in names:
        if re.search(r'(?<![\w.′-])' + re.escape(x) + r'(?![\w′-])', body): use(mod, x)
for x in ('pStruct', 'rStruct', 'pEnum', 'rEnum'):
    if x in body: use(f'Rattle·{crate}·proofs.proofs.Derive', x)
if 'pointee' in body: use('denote.Memory', 'pointee')
for mod in sorted(mods): out.append(f'use {mod}.{{{", ".join(sorted(mods[mod]))}}}')
P = f'Rattle·{crate}·proofs.proofs'
out.append(f'use {P}.Facts as Facts')
for t in sorted(set(re.findall(r'(\w+)′\.', body))): out.append(f'use {nm.home.get(t, P)}.{t}.Laws as {t}′')
for t in sorted(set(re.findall(r'(?<![\w′])([A-Z]\w*)\.the-', body))): out.append(f'use {nm.home.get(t, P)}.{t}')
out.append(f'use {P}.{fn} as fn')
out.append(f'use {P}.{fn}.Symbol as symbol')
out.append(f'''
abbrev pub ps : List (PK {n})
ps = {ps}

abbrev pub r : RK {n}
r = {r}

abbrev pub req : Facts.Reqs {n} ps r
req κs a g w = fn.clauses (w .𝓤) (w .H) (w .𝓖 .A) (w .𝓜 .mem) (w .𝓡 .run) κs a .requires g

abbrev pub ens : Facts.Enss {n} ps r
ens κs a g z e w = fn.clauses (w .𝓤) (w .H) (w .𝓖 .A) (w .𝓜 .mem) (w .𝓡 .run) κs a .ensures g z e

abbrev pub rq : Facts.ReadReq {n} ps r req
rq κs a g = all-models (req κs a g) (λ w. {chain(nreq)}) (λ w. refl) (λ w. refl) (λ w. refl)

abbrev pub en : Facts.ReadEns {n} ps r ens
en κs a g z e = all-models (ens κs a g z e) (λ w. {chain(nens)}) (λ w. refl) (λ w. refl) (λ w. refl)

abbrev pub spec : Facts.Contract
spec = record {{
  n = {n};
  ps = ps;
  r = r;
  req = req;
  ens = ens;
  rq = rq;
  en = en;
  name = symbol.name;
  no-held = λ w κs a. refl;
  no-held′ = λ w κs a z e. refl;
  no-wants = λ κs a g. tt;
  no-wants′ = λ κs a z e. tt;
}}''')
print('\n'.join(out))
