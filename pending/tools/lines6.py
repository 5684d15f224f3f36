import subprocess,collections,sys
a,b=sys.argv[1],sys.argv[2]
cwd='/work/w/r6j'
out=subprocess.check_output(['git','diff','--numstat','-M',a,b,'--','crates'],cwd=cwd,text=True)
d=collections.defaultdict(lambda:[0,0]); sp=[0,0]
for l in out.splitlines():
    x,y,f=l.split('\t')
    if x=='-': continue
    c=f.split('/')[1] if '=>' not in f else f.split('/')[1]
    d[c][0]+=int(x); d[c][1]+=int(y)
    if '/specs/' in f or '/proofs/' in f: sp[0]+=int(x); sp[1]+=int(y)
tot=collections.Counter()
ls=subprocess.check_output(['git','ls-tree','-r','--name-only',a,'crates'],cwd=cwd,text=True).splitlines()
allsp=0
for f in ls:
    if f.endswith('.antt') or f.endswith('.rt'):
        n=subprocess.check_output(['git','show',a+':'+f],cwd=cwd).count(b'\n')
        c=f.split('/')[1]; tot[c]+=n
        if f.endswith('.antt'): allsp+=n
for c in sorted(d,key=lambda c:-d[c][0]): print(f"| `{c}` | {d[c][0]:,} | {d[c][1]:,} | {tot[c]:,} |")
print('all',sum(v[0] for v in d.values()),sum(v[1] for v in d.values()),'specs+proofs',sp,'of',allsp)
print('stayed',sorted(set(tot)-set(d)))
