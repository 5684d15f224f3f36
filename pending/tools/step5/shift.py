import re
def shift(p,spec):
    L=open(p).read().split('\n')
    for k,l in enumerate(L):
        m=re.match(r'([\w-]+) c( κs)? = ',l)
        if not m or m.group(1) not in spec: continue
        d=spec[m.group(1)]
        def f(t):
            n=t.group(1).count('.before'); return '(c'+' .before'*(n+d.get(t.group(2),0))+' .'+t.group(2)+')'
        def g(t):
            n=t.group(1).count('.before'); return '(c'+' .before'*(n+d.get('start',0))+')'
        l=re.sub(r'\(c((?: \.before)*)\)(?= \.pre)',lambda t:'\x00'+g(t)[1:],l)
        l=re.sub(r'\(c((?: \.before)*) \.((?!before)[\w-]+)\)',f,l).replace('\x00','(')
        L[k]=l
    open(p,'w').write('\n'.join(L))
