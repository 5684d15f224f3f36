#!/bin/bash
# priorities by the folder in which a process works: lines "PREFIX NICE" in /work/notes/prio.txt
while :; do
  for p in /proc/[0-9]*; do
    c=$(readlink $p/cwd 2>/dev/null) || continue
    while read pre n; do
      case "$c" in "$pre"*) echo $n > $p/autogroup 2>/dev/null; renice -n $n -p ${p#/proc/} >/dev/null 2>&1;; esac
    done < /work/notes/prio.txt
  done
  sleep 3
done
