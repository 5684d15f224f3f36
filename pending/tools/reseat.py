#!/usr/bin/env python3
"""reseat CRATE FN..: proof files of functions whose code changed: the answers of the old file put at the needs of the new derivation.
Run from the repository root after `rt dev CRATE --generated target/generated/CRATE` (done here unless KEEP=1)."""
import re,sys,os,pathlib,subprocess,shutil
crate=sys.argv[1]; fns=sys.argv[2:]
folder=pathlib.Path('target/generated')/crate
if not (os.environ.get('KEEP') and folder.exists()):
    shutil.rmtree(folder,ignore_errors=True); folder.parent.mkdir(parents=True,exist_ok=True)
    subprocess.run(['rt','dev',crate,'--generated',str(folder)],capture_output=True,text=True)
def base(n): return re.sub(r'-\d+$','',n)
def known(fn):
    found=sorted(folder.glob(f'*{crate}·proofs/proofs/**/{fn}/Lts.antt'))
    if not found: sys.exit(f'no derivation of {fn}')
    records,current,need,needs={},None,None,{}
    for line in found[0].read_text().split('\n'):
        if m:=re.match(r'\s+pub record (\S+)',line): current=m.group(1); records[current]={}
        elif (m:=re.match(r'\s+pub (\S+) : (.*)',line)) and current: records[current][m.group(1)]=m.group(2)
        elif m:=re.match(r'\s+Need-(\S+) =',line):
            need,current=m.group(1),None
            line=line.split('=',1)[1]
        if (m:=re.match(r'\s+\(c : (\S+?)\)',line)) and need:
            place,path,things=m.group(1),'c',[]
            while place and place!='Start':
                fields=records.get(place,{})
                for thing in (f for f in fields if f!='before'): things.append((thing,f'{path} .{thing}'))
                place,path=fields.get('before'),path+' .before'
            things+=[('args',f'{path} .args'),('start',path)]
            needs[need]=things; need=None
    text=found[0].read_text()
    order=[n for n,m in re.findall(r'\((\S+) : Need-(\S+?)\)',text) if n==m]
    seen=[]
    for n in order:
        if n not in seen: seen.append(n)
    miss=[n for n in seen if n not in needs]
    if miss: print('not read:',miss)
    return {n:needs.get(n,[]) for n in seen} if seen else needs
def group(names):
    """key of each need: base and which of that base; same-length by the return that follows and its place before it"""
    keys={}; count={}; pend=[]
    nxt={}
    r=0
    for n in names:
        b=base(n)
        if b=='same-length': pend.append(n)
        else:
            count[b]=count.get(b,0)+1; keys[n]=(b,count[b])
            if b=='returns':
                for i,x in enumerate(pend): keys[x]=('same-length',count[b],i)
                pend=[]
    for i,x in enumerate(pend): keys[x]=('same-length','end',i)
    return keys
for fn in fns:
    f=sorted(pathlib.Path('crates',crate,'proofs').glob(f'**/{fn}/Proof.antt'))[0]
    text=f.read_text()
    needs=known(fn)
    blocks={}
    for m in re.finditer(r'^([\w-]+) : tie\.Need-\1((?: [^\n]*)?)\n((?:unfolding[^\n]*\n)?)\1([^\n=]*)= *((?:[^\n]*)(?:\n[ ]+[^\n]*)*)',text,re.M):
        blocks[m.group(1)]=(m.group(3),m.group(4),m.group(5),m.start(),m.end()); suffix=m.group(2)
    spec=re.search(r'\(tie\.spec\s+((?:[^\s()]+\s*)+)\)',text)
    lead=[n for n in spec.group(1).split() if n not in blocks]
    old=[n for n in spec.group(1).split() if n in blocks]
    ok=group([n for n in old if n in blocks or True])
    byk={ok[n]:n for n in old}
    nk=group(list(needs))
    size=lambda ks: {k[1]:sum(1 for j in ks if j[0]=='same-length' and j[1]==k[1]) for k in ks if k[0]=='same-length'}
    so,sn=size(ok.values()),size(nk.values())
    INS=int(os.environ.get('INS','9'))
    for k in list(nk):
        t=nk[k]
        if t[0]=='same-length' and sn.get(t[1],0)==so.get(t[1],0)+1:
            nk[k]=(t[0],t[1],t[2]) if t[2]<INS else ((t[0],t[1],'new') if t[2]==INS else (t[0],t[1],t[2]-1))
    header=text[:min(b[3] for b in blocks.values())]
    tail=text[max(b[4] for b in blocks.values()):]
    out=header; warn=[]
    used=set()
    for n in needs:
        o=byk.get(nk[n])
        args=' c κs ' if n and re.search(r'-requires(-\d+)?$',n) else ' c '
        unf='' ; body='search needs'
        if o and o in blocks:
            used.add(o)
            unf,a,term,_,_=blocks[o]; args=a
            if term.strip()!='search needs':
                F=lambda m: '@{start} .'+m.group(2) if m.group(2) in ('pre','good','fits') else '@{'+m.group(2)+'}'
                t=re.sub(r'\(c((?: \.before)*) \.(?!before\b)([\w-]+)\)',F,term)
                t=re.sub(r'\(c((?: \.before)*)\)',r'@{start}',t)
                # bare uses c .before .. .thing .field
                t=re.sub(r'(?<![\w.@])c((?: \.before)*) \.(?!before\b)([\w-]+)',F,t)
                at={}
                for thing,path in needs[n]: at.setdefault(thing,path)
                lost=[x for x in re.findall(r'@\{([\w-]+)\}',t) if x not in at]
                if lost: warn.append(f'{n} (old {o}): nothing known as {lost}: {t[:300]}'); 
                body=re.sub(r'@\{([\w-]+)\}',lambda m:f'({at.get(m.group(1),"?"+m.group(1))})',t)
        elif base(n)!='same-length' : warn.append(f'{n}: new need')
        out+=f'{n} : tie.Need-{n}{suffix}\n{unf}{n}{args}= {body}\n\n'
    for o in blocks:
        if o not in used and blocks[o][2].strip()!='search needs': warn.append(f'old {o} not used: {blocks[o][2][:200]}')
    tail=tail.lstrip('\n')
    sp=re.search(r'\(tie\.spec\s+((?:[^\s()]+\s*)+)\)',tail)
    if sp:
        tail=tail[:sp.start()]+'(tie.spec\n    '+'\n    '.join(lead+list(needs))+')'+tail[sp.end():]
    f.write_text(out+tail)
    print(f'{fn}: {len(needs)} needs, was {len(old)}')
    for w in warn: print('   ',w)
