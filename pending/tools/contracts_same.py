#!/usr/bin/env python3
"""Every contract of HEAD and of the working tree, lets put in, compared up to superfluous parentheses."""
import re,subprocess,glob,sys
base=sys.argv[1] if len(sys.argv)>1 else 'HEAD'
OPS={'≡','×','→','≤','<','+','*','++','=',';',':','λ','.'}
def toks(s): return re.findall(r'[(){}⌜⌝\[\];]|[^\s(){}⌜⌝\[\];]+',s)
def parse(t,i=0,close=None):
    out=[]
    while i<len(t):
        x=t[i]
        if x==close: return out,i
        if x in '({⌜': 
            sub,i=parse(t,i+1,{'(':')','{':'}','⌜':'⌝'}[x]); out.append(sub if x=='(' else [x]+sub)
        elif x=='let':
            name=t[i+1]; assert t[i+2]=='='
            j=i+3;depth=0
            while not(t[j]=='in' and depth==0):
                depth+= t[j]=='('; depth-= t[j]==')'; j+=1
            val,_=parse(t[i+3:j])
            rest,i2=parse(t,j+1,close)
            return out+[subst(x,name,val) for x in rest],i2
        else: out.append(x)
        i+=1
    return out,i
def subst(x,n,v):
    if isinstance(x,list): return [subst(y,n,v) for y in x]
    return v if x==n else x
def norm(x):
    if not isinstance(x,list): return x
    x=[norm(y) for y in x]
    while len(x)==1 and isinstance(x[0],list): x=x[0]
    out=[]
    for k,y in enumerate(x):
        # an operand that is one parenthesis without operators: its parenthesis is superfluous
        if isinstance(y,list) and not any(isinstance(z,str) and z in OPS for z in y) and (k==0 or (isinstance(x[k-1],str) and x[k-1] in OPS|{'⌜'})) and not (k+1<len(x) and isinstance(x[k+1],str) and x[k+1].startswith('.')):
            out+=y
        else: out.append(y)
    if len(out)==1 and not isinstance(out[0],list): return out[0]
    return out
def contracts(s):
    got={}
    fn=None;n=0
    for m in re.finditer(r'\bfn (\w+)|^    (requires|ensures) \{(.*?)\}$(?=\n(?:    (?:requires|ensures|decreases)|\{|;))',s,re.M|re.S):
        if m.group(1): fn=m.group(1); n+=1
        else:
            body,_=parse(toks(m.group(3)))
            got[fn,m.group(2)]=norm(body)
    return got
bad=0;total=0;changed=0
for f in sorted(glob.glob('crates/*/src/*.rt')):
    old=subprocess.run(['git','show',f'{base}:{f}'],capture_output=True,text=True).stdout
    new=open(f,encoding='utf8').read()
    a,b=contracts(old),contracts(new)
    total+=len(a)
    if a.keys()!=b.keys(): print(f,'keys',a.keys()^b.keys()); bad+=1
    for k in a:
        if k in b and a[k]!=b[k]: print(f,k); print('  ',a[k]); print('  ',b[k]); bad+=1
    # code outside contracts the same
    strip=lambda s:re.sub(r'\s+','',re.sub(r'^    (requires|ensures) \{(.*?)\}$(?=\n(?:    (?:requires|ensures|decreases)|\{|;))','',s,flags=re.M|re.S))
    def uses(s):
        got={}
        for m in re.finditer(r'^ghost use (.*)\.\{(.*)\};$',s,re.M): got.setdefault(m.group(1),[]).extend(m.group(2).split(', '))
        return got
    if uses(old)!=uses(new): print(f,'uses differ'); bad+=1
    rest=lambda s:strip(re.sub(r'^ghost use .*$','',s,flags=re.M))
    if rest(old)!=rest(new): print(f,'code differs'); bad+=1
    n=len(re.findall(r'^    (?:requires|ensures) \{',new,re.M))
    if n!=len(b): print(f,'contracts seen',len(b),'of',n)
print(total,'contracts,',bad,'differ')
