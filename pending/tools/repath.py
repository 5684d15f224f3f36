#!/usr/bin/env python3
"""repath CRATE FN..: in proof files of functions whose derivation got or lost steps: the paths in `c` put right, text otherwise kept."""
import re,sys,os,pathlib
crate=sys.argv[1]; fns=sys.argv[2:]
folder=pathlib.Path('target/generated')/crate
def known(fn):
    last=fn.split('/')[-1]
    found=sorted(folder.glob(f'*{crate}·proofs/proofs/**/{last}/Lts.antt'))
    if not found: sys.exit(f'no derivation of {fn}')
    records,current,need,needs={},None,None,{}
    text=found[0].read_text()
    for line in text.split('\n'):
        if m:=re.match(r'\s+pub record (\S+)',line): current=m.group(1); records[current]={}
        elif (m:=re.match(r'\s+pub (\S+) : (.*)',line)) and current: records[current][m.group(1)]=m.group(2)
        elif m:=re.match(r'\s+Need-(\S+) =',line):
            need,current=m.group(1),None
            line=line.split('=',1)[1]
        if (m:=re.match(r'\s+\(c : (\S+?)\)',line)) and need:
            place,path,things=m.group(1),'',[]
            while place and place!='Start':
                fields=records.get(place,{})
                for thing in (f for f in fields if f!='before'): things.append((thing,path))
                place,path=fields.get('before'),path+' .before'
            things+=[('args',path),('start',path)]
            needs[need]=things; need=None
    order=[n for n,m in re.findall(r'\((\S+) : Need-(\S+?)\)',text) if n==m]
    seen=[]
    for n in order:
        if n not in seen: seen.append(n)
    return {n:needs.get(n,[]) for n in seen} if seen else needs
def keys(names):
    out={}; count={}; pend=[]
    for n in names:
        b=re.sub(r'(-t)\d+(-\d+)?$',r'\1',n) if re.search(r'-t\d+(-\d+)?$',n) else re.sub(r'-\d+$','',n)
        if m:=re.match(r'(cast|add|mul|sub|div|rem|shl|shr|array-read|shared-slice-read|mut-slice-read|array-write)-(?!requires)',n): b=m.group(1)
        if b=='same-length': pend.append(n); continue
        count[b]=count.get(b,0)+1; out[n]=(b,count[b])
        if b=='returns':
            for i,x in enumerate(pend): out[x]=('same-length',count[b],i)
            pend=[]
    for i,x in enumerate(pend): out[x]=('same-length','end',i)
    return out
for fn in fns:
    f=sorted(pathlib.Path('crates',crate,'proofs').glob(f'**/{fn}/Proof.antt'))[0]
    text=f.read_text(); needs=known(fn)
    pat=re.compile(r'^([\w-]+) : tie\.Need-\1((?: [^\n]*)?)\n((?:unfolding[^\n]*\n)?)\1([^\n=]*)= *((?:[^\n]*)(?:\n[ ]+[^\n]*)*)',re.M)
    blocks={m.group(1):m for m in pat.finditer(text)}
    spec=re.search(r'\(tie\.spec\s+((?:[^\s()]+\s*)+)\)',text)
    listed=spec.group(1).split()
    lead=[n for n in listed if n not in blocks]; old=[n for n in listed if n in blocks]
    # answers shared by several needs keep their own names
    ok=keys(old); byk={v:k for k,v in ok.items()}; nk=keys(list(needs))
    ren={}; new=[]; warn=[]
    for n in needs:
        o=byk.get(nk[n])
        if o is None: new.append(n); warn.append(f'{n}: new need')
        else: ren[o]=n
    for o in old:
        if o not in ren: warn.append(f'old {o} not used: {blocks[o].group(5)[:160]}')
    def fix(o,n,term):
        at={}
        for thing,path in needs[n]: at.setdefault(thing,path)
        def r(m):
            thing=m.group(2)
            if thing in ('pre','good','fits'): return 'c'+at['start']+' .'+thing
            if thing not in at: warn.append(f'{n} (old {o}): nothing known as {thing}'); return m.group(0)
            return 'c'+at[thing]+' .'+thing
        t=re.sub(r'@([\w-]+)',lambda m:'c'+at[m.group(1)]+' .'+m.group(1),term)
        # (c .before .before) .pre  -- start with a closing parenthesis
        t=re.sub(r'(?<![\w.-])\(c((?: \.before)*)\)(?= \.(pre|good|fits)\b)',lambda m:'(c'+at['start']+')',t)
        t=re.sub(r'(?<![\w.-])c((?: \.before)*) \.(?!before\b)([\w-]+)',r,t)
        return t
    out=text
    pieces=[]; pos=0
    for o,m in sorted(blocks.items(),key=lambda x:x[1].start()):
        if o not in ren: continue
        n=ren[o]
        pieces.append(text[pos:m.start()])
        term=fix(o,n,m.group(5))
        head=text[m.start():m.start(5)]
        head=re.sub(r'(?<![\w-])'+re.escape(o)+r'(?![\w-])',n,head).replace('Need-'+o,'Need-'+n) if o!=n else head
        pieces.append(head+term); pos=m.end()
    pieces.append(text[pos:]); out=''.join(pieces)
    names=list(needs)
    suffix=next(iter(blocks.values())).group(2) if blocks else ''
    for n in new:
        args=' c κs ' if re.search(r'-requires(-\d+)?$',n) else ' c '
        b=f'{n} : tie.Need-{n}{suffix}\n{n}{args}= search needs\n\n'
        later=[x for x in names[names.index(n)+1:] if re.search(r'^'+re.escape(x)+r' : tie\.Need',out,re.M)]
        i=re.search(r'^'+re.escape(later[0])+r' : tie\.Need',out,re.M).start() if later else re.search(r'^pub ',out,re.M).start()
        out=out[:i]+b+out[i:]
    sp=re.search(r'\(tie\.spec(\s+)((?:[^\s()]+\s*)+)\)',out)
    want=lead+names
    if sp.group(2).split()!=want:
        sep=' ' if '\n' not in sp.group(2) and '\n' not in sp.group(1) else '\n    '
        out=out[:sp.start()]+'(tie.spec'+sp.group(1)+sep.join(want)+')'+out[sp.end():]
    if out!=text: f.write_text(out); print(f'{fn}: changed')
    else: print(f'{fn}: same')
    for w in warn: print('   ',w)
