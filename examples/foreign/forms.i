# 0 "forms.pml"
# 0 "<built-in>"
# 0 "<command-line>"
# 1 "/usr/include/stdc-predef.h" 1 3 4
# 0 "<command-line>" 2
# 1 "forms.pml"







mtype = { idle, busy, }
mtype = { cold
 warm hot,, boiling }

byte load[(3) + 1]
chan work = [2 * (3) - 4] of { byte }

active proctype Hub()
{
 xs work
 byte i = 1, sum = 2
 mtype state = warm
 byte copy[((3) + 1) * 2 - 8 / (3)], one[1]

 for (i in load) {
  load[i] = i + sum
 }
 for (i in copy) {
  copy[i] = i
 }
 work!load[3]
 work!copy[5]
 state = boiling
 printf("%e %d %d\n", state, load[3], sum)
}
