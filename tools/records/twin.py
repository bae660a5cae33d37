#!/usr/bin/env python3
# Of the older kit (rattle-kit-5b-plain): see tools/derive-over-records. The checker proves functions over lent records itself today.
"""twin.py: what contract.py and steps.py share: reading printed antt, its names, and the twin's types replaced by the struct's."""
import re, sys, os

# ---------------------------------------------------------------- reading antt
def toks(s):
    return re.findall(r'"[^"]*"|[(){};,]|λ|[^\s(){};,λ]+', s)

def split(t):
    if isinstance(t, str): t = toks(t)
    out = []; i = 0
    while i < len(t):
        if t[i] == 'λ':
            out.append(t[i:]); break
        if t[i] in ('(', '{'):
            j = closing(t, i)
            if t[i] == '{': out[-1] = out[-1] + t[i:j+1]
            else: out.append(t[i:j+1])
            i = j + 1
        else:
            out.append([t[i]]); i += 1
    return out

def show(t):
    s = ''
    for x in t:
        if x in (')', '}', ',', ';'):
            s = s.rstrip(' ') + (' }' if x == '}' else x) + ' '
        elif x == '(': s += x
        else: s += x + ' '
    s = s.strip()
    return re.sub(r'; }', ' }', re.sub(r', \)', ')', s)).replace(',)', ')')

def inner(t):
    return show(t[1:-1]) if t[0] == '(' and t[-1] == ')' and balanced(t[1:-1]) else show(t)

def balanced(t):
    d = 0
    for x in t:
        if x in ('(', '{'): d += 1
        elif x in (')', '}'): d -= 1
        if d < 0: return False
    return d == 0

# ---------------------------------------------------------------- names
class Names:
    """the modules that a printed file uses, and the names that the text takes of them, written unqualified"""
    def __init__(self, src, crate):
        self.alias = {}; self.crate = crate; self.used = {}; self.types = set(); self.home = {}
        for m in re.finditer(r'^use (\S+?)(?: as (\S+))?$', src, re.M):
            if '{' in m.group(1): continue
            self.alias[m.group(2) or m.group(1).split('.')[-1]] = m.group(1)
    def canon(self, text):
        def f(m):
            a, n = m.group(1), m.group(2)
            if a not in self.alias: return m.group(0)
            mod = self.alias[a]
            own = f'Rattle·{self.crate}·proofs.proofs.'
            if mod.startswith(own):
                rest = mod[len(own):].split('.')
                self.types.add(rest[0])
                return rest[0] + ('′' if rest[1:] == ['Laws'] else '') + '.' + n
            m2 = re.match(r'Rattle·(\w+)\.proofs\.([A-Z]\w*)(\.Laws)?$', mod)
            if m2:
                self.types.add(m2.group(2)); self.home[m2.group(2)] = f'Rattle·{m2.group(1)}.proofs'
                return m2.group(2) + ('′' if m2.group(3) else '') + '.' + n
            if mod == 'denote.Enum.Laws' and n in ('val', 'lawful', 'makes', 'tells', 'still', 'copy', 'vals'):
                return 'EL.' + n
            self.used.setdefault(mod, set()).add(n)
            return n
        return re.sub(r"(?<![\w.·])([A-Z][\w']*)\.((?:[^\s(){};,.]|\.(?=\w+·))+)", f, text)

def element(text, elem, struct):
    """the twin's element type replaced by the struct's"""
    text = text.replace(f'(Array (rtF (fInt w64)) {elem})', f'{struct}.the-row')
    text = re.sub(r'Array \(rtF \(fInt w64\)\) %s \.Denot' % elem, f'{struct}.the-row .Denot', text)
    text = re.sub(r'(tyRef (?:erased|\(named \d+\)) (?:mut|imm)) \(tyArray \(tyInt w64\) %s\)' % elem, r'\1 (pointee (%s.the-row .written))' % struct, text)
    text = re.sub(r'(tyRef (?:erased|\(named \d+\)) (?:mut|imm)) \(tyArray \(tyArray \(tyInt w64\) %s\) (\d+)\)' % elem, r'\1 (pointee (Array %s.the-row \2 .written))' % struct, text)
    text = re.sub(r'tyArray \(tyArray \(tyInt w64\) %s\) (\d+)' % elem, r'tyArray %s′.mir \1' % struct, text)
    return text

def by_value(text, elem, struct):
    """the element by value, in a local: the twin has an array, the struct version a struct"""
    S = struct
    text = re.sub(r'yields-copy 𝓤 H A W \(λ ρ\. Unit\) %s\.the-row refl \(cArr .*?\.copy 𝓤 H A W\) \(arrF \S+ \(fInt w64\)\) %s 0\) \(λ x\. x\) \(λ x\. x\) \(λ ρ told\. mem-arr .*? ρ\) λ ρ told\. arr-mem .*? ρ' % (S, elem), f'copied K {S}.the-type {S}′.the-laws {S}′.the-copy', text)
    text = re.sub(r'makes-mem 𝓤 H A W \(λ ρ\. Unit\) %s\.the-row refl \(arrF .*? %s 0\) \(λ x\. x\) λ ρ told\. arr-mem .*? ρ' % (S, elem), f'made K {S}.the-row refl', text)
    text = text.replace(f'(cArr (rtF (fInt w64)) (cRf (fInt w64)) {elem})', f'(cStruct {S}.the-type {S}′.the-laws {S}′.the-copy)').replace(f'cArr (rtF (fInt w64)) (cRf (fInt w64)) {elem} .', f'cStruct {S}.the-type {S}′.the-laws {S}′.the-copy .')
    text = text.replace(f'arr-yields 𝓤 H A W (eInt w64) (eInt-laws w64) {elem}', f'copied K {S}.the-type {S}′.the-laws {S}′.the-copy')
    text = text.replace(f'arrF (rtF (fInt w64)) {elem} 0', f'whole {S}.the-row')
    text = text.replace(f'room-arr 𝓤 H A W (rtF (fInt w64)) {elem} 0 {elem} refl', f'let-go K {S}.the-row')
    text = text.replace(f'(tyArray (tyInt w64) {elem})', f'{S}′.mir').replace(f'pArr (eInt w64) (eInt-laws w64) {elem}', f'pStruct {S}.the-type {S}′.the-laws {S}′.the-copy {S}′.the-plain').replace(f'rArr (eInt w64) (eInt-laws w64) {elem}', f'rStruct {S}.the-type {S}′.the-laws {S}′.the-copy {S}′.the-plain')
    return text

ENUMS = {'Answer', 'Outcome', 'Reason', 'Checked', 'Got'}
def structs(text):
    """types by value: the struct's mir, its row, and the kinds of a struct or an enum"""
    text = re.sub(r'\(row (\w+)\.the-type\)', r'\1.the-row', text)
    def kind(pre):
        def f(m):
            n = m.group(1)
            return f"{pre}Enum {n}.the-type {n}′.the-laws {n}′.the-copy {n}′.the-plain tt" if n in ENUMS else f"{pre}Struct {n}.the-type {n}′.the-laws {n}′.the-copy {n}′.the-plain"
        return f
    for pre in ('p', 'r'):
        text = re.sub(pre + r'Val record \{[^}]*?ty = (?:\(?row )?(\w+)\.the-(?:type|row)[^}]*\} λ M 𝓤 H A W\. record \{[^}]*\}', kind(pre), text)
    return text

def closing(t, i):
    """where the bracket that opens at i closes, in a text or in tokens"""
    d = 0
    for j in range(i, len(t)):
        if t[j] in ('(', '{'): d += 1
        elif t[j] in (')', '}'): d -= 1
        if d == 0: return j

def lists(text):
    """_∷_ a (_∷_ b []) as a ∷ b ∷ []"""
    t = toks(text)
    def conv(t):
        out = []; i = 0
        while i < len(t):
            if t[i] == '(':
                j = closing(t, i)
                innr = t[i+1:j]
                if innr and innr[0] == '_∷_':
                    out += ['('] + flat(innr) + [')']
                else: out += ['('] + conv(innr) + [')']
                i = j + 1
            else: out.append(t[i]); i += 1
        return out
    def flat(t):
        a = split(t)
        hd, tl = a[1], a[2]
        if tl[0] == '(' : tl = tl[1:-1]
        h = conv(hd)
        rest = flat(tl) if tl[0] == '_∷_' else conv(tl)
        return h + ['∷'] + rest
    t = flat(t) if t and t[0] == '_∷_' else conv(t)
    return show(t)

def spelled(text, head, told):
    """each type that begins with head, told by its name and its text"""
    out = ''; i = 0
    while True:
        j = text.find(f'({head} (', i)
        if j < 0: return out + text[i:]
        k = closing(text, j)
        codes = re.match(r'\(\w+ \(([\d ∷\[\]]+)\)', text[j:k+1])
        out += text[i:j] + told(''.join(chr(int(x)) for x in re.findall(r'\d+', codes.group(1))), text[j:k+1])
        i = k + 1

def declared(name, term):
    """the MIR type of a declared struct or enum, spelled out, as its mir; a slice as sliceTy"""
    if name == '&[]':
        return '(sliceTy %s)' % re.match(r'\(tyStruct \([^)]*\) \(tcons (.*) \(tcons \(tyInt w64\) tnil\)\)\)$', term).group(1)
    return name.split('::')[-1] + '′.mir'

def tidy(text, nm, crate, elem, struct):
    t = nm.canon(text)
    t = lists(t)
    t = spelled(t, 'tyStruct', declared)
    t = spelled(t, 'tyEnum', declared)
    t = structs(t)
    t = element(t, elem, struct)
    t = by_value(t, elem, struct)
    return t
