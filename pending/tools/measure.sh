#!/bin/bash
# measure.sh TREE TAG: unproved archive of TREE, size and instructions
tree=$1; tag=$2; cd $tree
libs=""; for d in $(grep "^eikelzwier:" crates.txt | cut -d: -f2) eikelzwier; do [ -f crates/$d/src/lib.rt ] && libs="$libs --lib $d=crates/$d/src/lib.rt"; done
export KEPT=/tmp/f/$tag.bc
echo $KEPT > /tmp/f/keptname; /opt/rattle/on/x86_64/bin/rattle-cases --toolchain /tmp/f/tc /tmp/f/probe/src/main.rt --crate-name probe --lib std=/opt/rattle/libs/std/src/lib.rt $libs > /tmp/f/$tag.say 2>&1 || { cat /tmp/f/$tag.say; exit 1; }
C=/opt/rattle/on/x86_64/toolchain/bin/clang
$C --target=x86_64-unknown-linux-gnu -S -emit-llvm -O0 -x ir $KEPT -o /tmp/f/$tag.ll -Xclang -disable-llvm-passes
grep -n "^define.*\(eikelzwier\|@main\)" /tmp/f/$tag.ll | cut -c1-200
python3 - $tag <<'PY'
import sys,re
tag=sys.argv[1]
t=open(f'/tmp/f/{tag}.ll').read()
i=t.index('define i32 @main()'); j=t.index('\n}\n',i)+3
t=t[:i]+t[j:]
i=t.index('define internal void @"probe::main"'); j=t.index('\n}\n',i)+3
t=t[:i]+t[j:]
def wrap(name,n,ret):
    a=', '.join(f'ptr %p{k}, i64 %n{k}' for k in range(n))
    b=[]
    for k in range(n):
        b.append(f'  %s{k} = alloca [16 x i8], align 8\n  store ptr %p{k}, ptr %s{k}\n  %g{k} = getelementptr i8, ptr %s{k}, i64 8\n  store i64 %n{k}, ptr %g{k}')
    args=', '.join(f'ptr %s{k}' for k in range(n))
    if ret:
        return f'define {{ i64, i64 }} @{name}({a}) #0 {{\n  %o = alloca [16 x i8], align 8\n'+'\n'.join(b)+f'\n  call void @"eikelzwier::{name}"(ptr %o, {args})\n  %v = load {{ i64, i64 }}, ptr %o\n  ret {{ i64, i64 }} %v\n}}\n'
    return f'define i8 @{name}({a}) #0 {{\n'+'\n'.join(b)+f'\n  %v = call i8 @"eikelzwier::{name}"({args})\n  ret i8 %v\n}}\n'
t+=wrap('eikelzwier_fresh',10,False)+wrap('eikelzwier_command',12,True)
open(f'/tmp/f/{tag}.ll','w').write(t)
PY
$C --target=x86_64-unknown-linux-gnu -march=x86-64 -ffunction-sections -fdata-sections -mllvm -trap-unreachable -mllvm -no-trap-after-noreturn -c -x ir /tmp/f/$tag.ll -o /tmp/f/$tag.o -fPIE -O3 -Xclang -fmerge-functions -mllvm -mergefunc-use-aliases -Wno-override-module
size /tmp/f/$tag.o
cc -std=c11 -O2 -Iinclude -ffunction-sections -Wl,--gc-sections tests/c/cost.c /tmp/f/stub.o /tmp/f/$tag.o -o /tmp/f/$tag.cost
for case in 0 1 2 3 4 5 6 7 8 9; do
  valgrind --tool=callgrind --callgrind-out-file=/tmp/f/$tag.out --toggle-collect=eikelzwier_command /tmp/f/$tag.cost plain /tmp/f/script$case 1 >/dev/null 2>/tmp/f/said
  sum=$(sed -n 's/^summary: \([0-9]*\).*/\1/p' /tmp/f/$tag.out)
  awk -v s="$sum" -v n="$(wc -l </tmp/f/script$case)" 'BEGIN { printf "%.1f ", s / n }'
done; echo
