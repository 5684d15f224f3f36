import re,sys
class Sim:
    def __init__(s,known): s.ev=['known']*known; s.at={}
    def copy(s):
        t=Sim(0); t.ev=list(s.ev); t.at=dict(s.at); return t
    def place(s,name=None): s.ev.append(name or '-'); return s
    def args(s,n):
        for _ in range(n): s.ev.append('arg')
        return s
    def mark(s,need): s.at[need]=list(s.ev); return s
    def call(s,name,lent,mut):
        # lent: number of &mut tables lent in any way; mut: of them as &mut
        s.args(lent); s.mark(name+'-requires'); s.ev.append(name)
        for _ in range(2*mut): s.ev.append('ret')
        return s
def path(ev,thing):
    if thing in ('start','args'): return len(ev)
    for k,e in enumerate(reversed(ev)):
        if e==thing: return k
    raise KeyError(thing)
def fill(file,marks):
    s=open(file).read(); out=[]
    for block in s.split('\n\n'):
        m=re.match(r'([\w-]+) : tie\.Need-\1\n',block)
        if m and '@' in block:
            ev=marks.get(m.group(1))
            if ev is None: print('no mark',file,m.group(1)); out.append(block); continue
            def r(t):
                n=path(ev,t.group(1))
                if t.group(1)=='start': return '(c'+' .before'*n+')'
                return '(c'+' .before'*n+' .'+t.group(1)+')'
            block=re.sub(r'@([\w-]+)',r,block)
        out.append(block)
    open(file,'w').write('\n\n'.join(out))
# bus::command
M={}
a=Sim(12).place('if1'); M['returns']=a.ev
b=a.copy().call('is-sound',10,0).place('if2')
c=b.copy().call('write-refusal',1,1); M['returns-2']=c.ev
d=b.copy().place('parse').place('match')
e=d.copy().place('n').place().call('write-refusal2',1,1); M['returns-3']=e.ev
f=d.copy().place('c').place().call('judge',9,0); M['judge-requires']=f.at['judge-requires']
f.call('carry-out',11,11); M['carry-out-requires']=f.at['carry-out-requires']; M['returns-4']=f.ev
fill('crates/bus/proofs/command/Proof.antt',M)
# journal
M={}
a=Sim(13).place('if1'); M['returns']=a.ev
b=a.copy().place('if2')
c=b.copy().call('write-refusal',1,1).place('with-used'); M['returns-2']=c.ev
d=b.copy().call('is-sound',10,0).place('if3')
e=d.copy().call('write-refusal2',1,1).place('with-used2'); M['returns-3']=e.ev
f=d.copy().place('parse').place('match')
g=f.copy().place('n').place().call('write-refusal3',1,1).place('with-used3'); M['returns-4']=g.ev
h=f.copy().place('c').place().call('execute',12,12); M['execute-requires']=h.at['execute-requires']; M['returns-5']=h.ev
fill('crates/journal/proofs/command_with_journal/Proof.antt',M)
# execution::change
M={}
m=Sim(11).place('match')
def arm(k): return m.copy().place('order' if k==1 else f'order{k}').place()
M['returns']=arm(1).ev
x=arm(2).call('open-peer',1,1); M['open-peer-requires']=x.at['open-peer-requires']; M['returns-2']=x.ev
x=arm(3).call('disconnect',8,8); M['disconnect-requires']=x.at['disconnect-requires']; x.call('drop-seed',1,1); M['drop-seed-requires']=x.at['drop-seed-requires']; M['returns-3']=x.ev
x=arm(4).call('create',3,3); M['create-requires']=x.at['create-requires']; M['returns-4']=x.ev
x=arm(5).call('destroy',8,6); M['destroy-requires']=x.at['destroy-requires']; M['returns-5']=x.ev
x=arm(6).call('release',9,8); M['release-requires']=x.at['release-requires']; M['returns-6']=x.ev
x=arm(7).call('transfer',7,6); M['transfer-requires']=x.at['transfer-requires']; M['returns-7']=x.ev
x=arm(8)
for n in ('add-at','mul-at','add-at-2','sub-data','part-data-start','part-data-end'): M[n]=list(x.ev)
x.place('part'); x.call('send',7,7); M['send-requires']=x.at['send-requires']; x.call('replace-seed',1,1); M['replace-seed-requires']=x.at['replace-seed-requires']; M['returns-8']=x.ev
x=arm(9).call('load',1,0); M['load-requires']=x.at['load-requires']; x.place('balance'); M['returns-9']=x.ev
x=arm(10).call('holders',1,0); M['holders-requires']=x.at['holders-requires']; M['returns-10']=x.ev
M['returns-11']=m.ev
fill('crates/execution/proofs/change/Proof.antt',M)
M={}
m=Sim(12).place('match')
x=arm(1).call('receive',10,9); M['receive-requires']=x.at['receive-requires']; M['returns']=x.ev
x=arm(2).call('show-seed',9,7); M['show-seed-requires']=x.at['show-seed-requires']; M['returns-2']=x.ev
x=m.copy().call('change',10,10); M['change-requires']=x.at['change-requires']; x.call('write-plain',1,1); M['returns-3']=x.ev
fill('crates/execution/proofs/carry_out/Proof.antt',M)
