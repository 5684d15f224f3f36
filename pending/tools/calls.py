import re,sys
WORDS=[('twelve','thirteen'),('eleven','twelve'),('ten','eleven'),('nine','ten')]
for p in sys.argv[1:]:
    s=open(p).read()
    # numbers of lifetimes
    s=re.sub(r"\b(Lfts|endedOf) (\d+)\b", lambda m: f"{m.group(1)} {int(m.group(2))+(int(m.group(2))>8)}", s)
    for a,b in WORDS: s=re.sub(rf"(?<![\w-]){a}(?![\w-])", b, s)
    # shift
    s=re.sub(r"\b([a-z]′?)((?: \.1){9,}) \.([01])\b", lambda m: f"{m.group(1)}{m.group(2)} .1 .{m.group(3)}", s)
    s=re.sub(r"(\(now \(([a-z]′?)((?: \.1){8}) \.0\)\))", r"\1 (now (\2\3 .1 .0))", s)
    def ins(s,pat,f):
        out='';i=0
        for m in re.finditer(pat,s):
            if m.start()<i: continue
            out+=s[i:m.start()]+f(m); i=m.end()
            j=s.index('tt',i); out+=s[i:j]+'tt)'; i=j+2
        return out+s[i:]
    s=ins(s,r"\(at-last \(([a-z]′?)((?: \.1){8}) \.0\) \(([^()]*?) \.pool\), ",lambda m:m.group(0)+f"(at-last ({m.group(1)}{m.group(2)} .1 .0) ({m.group(3)} .seeds), ")
    s=ins(s,r"\(lent \(([^()]*?) \.pool\), ",lambda m:m.group(0)+f"(lent ({m.group(1)} .seeds), ")
    open(p,'w').write(s)
