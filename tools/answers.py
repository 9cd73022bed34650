"""Short proof files from what `rt dev NAME` offers: only the needs that are answered by hand are declared, the others stand inline.

usage, from the repository's root, in a script of one's own:
    from answers import *
    scan('rules'); scan('laws'); scan(CRATE, own=True)      # names that may be cited: their `use` lines are written by need
    load(CRATE, RAW, PLACES)                                # RAW: what `rt dev CRATE` printed; PLACES: what tools/places CRATE printed
    mk(FUNCTION, {NEED: ANSWER or (UNFOLDING, ANSWER)}, inv={LOOP: TEXT}, mu={LOOP: TEXT})
In an answer @thing stands for its path into `c`, as @loop .inv .1 or @Start .pre.
"""
import glob
import os
import re
KNOWN={}
def known(module,names):
    for n in names.split(): KNOWN[n]=module
known('Prim.Native.Nat','ℕ zero suc _+_ _*_ _-_ _/_ _%_ _^_ _≤_ _<_ min max')
known('mathlib.Core.Path','_≡_ refl sym _∙_ ap ap₂ subst')
known('mathlib.Core.List','List [] _∷_ _++_ map')
known('mathlib.Core.Bool','Bool true false not cond')
known('mathlib.Core.Logic','⊎-elim')
known('lib.ListN','length getD take drop set replicate length-set length-take length-drop length-append')
known('lib.Seq','sets paste slice take-all')
known('lib.IntN','ℤ pos negsuc negℤ subℕ')
known('denote.Ref','now')
known('native.Mathlib.Omega','arith')
known('native.Mathlib.Numerals','add-one towards-suc')
known('borrow.Author.Needs','needs sfits-of')
known('borrow.Author.Tests','lt-ltb le-ltb le-leb lt-leb eq-eqb ne-eqb ltb-true ltb-false leb-true leb-false eqb-true eqb-false')
known('mir.Syntax','w64 w32')
known('mir.Val','Fits SFits toZ ofZ')
known('mir.Facts','toZ-ofZ')
def scan(crate,own=False,root='crates'):
    """names of a crate's specs (and own proofs) become importable"""
    for kind in ('specs',)+(('proofs',) if own else ()):
        for p in glob.glob(f'{root}/{crate}/{kind}/*.antt'):
            m=os.path.basename(p)[:-5]
            if m=='Lib': continue
            mod=f'Rattle·{crate}·{kind}.{kind}.{m}' if own else f'Rattle·{crate}.{kind}.{m}'
            rec=None
            for l in open(p):
                ind=len(l)-len(l.lstrip())
                if rec is not None and l.strip() and ind<=rec: rec=None
                x=re.match(r'\s*(?:unfoldable |abbrev )?pub (record )?([^\s:(]+)',l)
                if not x: continue
                if rec is None and x[2] not in('mod','use','data','ruleset'): KNOWN.setdefault(x[2],mod)
                if x[1] and 'where' in l: rec=ind
OFF={};PL={};CRATE=None
def load(crate,raw,places):
    global CRATE; CRATE=crate
    lines=open(raw).read().split('\n'); i=0
    while i<len(lines):
        m=re.match(r'help: write (\S+)/proofs/(\S+)/Proof\.antt with these lines',lines[i]); i+=1
        if not m: continue
        body=[]
        while i<len(lines) and (lines[i].startswith('    ') or not lines[i].strip()): body.append(lines[i][4:]); i+=1
        OFF[m[2]]='\n'.join(body).rstrip()+'\n'
    cur=None
    for l in open(places):
        m=re.match(r'== (\S+)',l)
        if m: cur=m[1]; PL[cur]={}; continue
        m=re.match(r"\s+([\w'·-]+): (.*)",l)
        if m and cur: PL[cur][m[1]]=[(x.rsplit(':',1)[0],int(x.rsplit(':',1)[1])) for x in m[2].split()]
def mk(fn,answers={},inv={},mu={},note='',extra=''):
    t=OFF[fn]
    t=re.sub(r'^ *-- [^\n]*\n','',t,flags=re.M)
    heads=re.findall(r"^use (Rattle·\S+\.(?:Statement\.\{statement\}|Tie as tie))$",t,re.M)
    decl={}
    for m in re.finditer(r"^([\w'·-]+) :\s+(tie\.(?:Need|InvT|MeasureT)-[^\n]*)\n(?:unfolding [^\n]*\n)?\1 ((?:[^\n=]*?))= ",t,re.M): decl[m[1]]=(m[2],m[3].strip())
    for m in re.finditer(r"^abbrev ((?:Inv|μ)-[\w'·-]+) : (tie\.\S+)\n\1 ([^\n=]*)= ",t,re.M): decl[m[1]]=(m[2],m[3].strip())
    s=re.search(r'^pub (\S+-spec) : .*',t,re.M|re.S)
    spec=s[0]; name=s[1]
    a=re.search(r'tie\.spec(.*)\)\s*$',spec,re.S)[1]
    args=re.findall(r"[\w'·-]+",a)
    out=[]; sp=[]
    def path(need,body):
        kn={}
        for k,n in PL.get(fn,{}).get(need,[]): kn.setdefault(k,'c'+' .before'*n+('' if k=='Start' else ' .'+k))
        def one(x):
            if x[1] not in kn: print('unknown',fn,need,x[1]); return x[0]
            return kn[x[1]]
        return re.sub(r"@([\w'·-]+)",one,body)
    used=set()
    for x in args:
        if x not in decl: print('??',fn,x); continue
        ty,bind=decl[x]
        if x.startswith('Inv-') or x.startswith('μ-'):
            b=(inv if x.startswith('Inv-') else mu).get(x.split('-',1)[1])
            if b is None: print('no',fn,x); b='?'
            out.append(f'abbrev {x} : {ty}\n{x} {bind} = {b}\n'); sp.append(x); continue
        if x in answers:
            used.add(x)
            an=answers[x]; unf,body=an if isinstance(an,tuple) else ('',an)
            out.append(f'{x} : {ty}\n'+(f'unfolding {unf}\n' if unf else '')+f'{x} {bind} = {path(x,body)}\n'); sp.append(x)
        else: sp.append(f'(λ {bind}. search needs)')
    for x in answers:
        if x not in used: print('not a need:',fn,x,[a for a in args])
    body='\n'.join(out)+('\n' if out else '')+(extra+'\n' if False else '')
    spec=f'pub {name} : {{M : Type 1}} → statement M\n{name} =\n    tie.close\n    (tie.spec\n    '+'\n    '.join(sp)+')\n'
    full=(extra+'\n\n' if extra else '')+body+spec
    bare=re.sub(r"(?<=[\s(])\.[^\s(){};,]+",'',re.sub(r'--[^\n]*','',full))  # without projections
    toks=set(re.split(r'[\s(){};,@]+',bare.replace('.',' ')))
    imp={}
    for n,mod in KNOWN.items():
        parts=[q for q in n.split('_') if q]
        if (n in toks) or ('_' in n and parts and all(q in toks for q in parts)): imp.setdefault(mod,[]).append(n)
    uses=''.join(f'use {m}.{{{", ".join(ns)}}}\n' for m,ns in imp.items())+''.join(f'use {h}\n' for h in heads)
    p=f'crates/{CRATE}/proofs/{fn}/Proof.antt'
    os.makedirs(os.path.dirname(p),exist_ok=True)
    fnn=fn.replace('/','::')
    open(p,'w').write(f'-- `{CRATE}::{fnn}` meets its contract{": "+note if note else ""}.\n'+uses+'\n'+full)
