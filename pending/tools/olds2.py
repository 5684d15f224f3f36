import sys,glob,os
root=sys.argv[1]; bad=0; n=0
for e in sorted(glob.glob(root+'/crates/*/must-fail/*.edit')):
    crate=e.split('/crates/')[1].split('/')[0]; cur=None
    for l in open(e):
        if l.startswith('file: '): cur=os.path.join(root,'crates',crate,l[6:].strip()); s=open(cur).read().split('\n') if os.path.exists(cur) else None
        elif l.startswith('old: '):
            n+=1
            o=l[5:].rstrip('\n')
            if s is None: print('NOFILE',e,cur); bad+=1; continue
            c='\n'.join(s).count(o)
            if c!=1: print(e.split('/crates/')[1],c,o[:90]); bad+=1
print(n,'old lines, bad',bad)
