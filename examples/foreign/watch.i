# 0 "watch.pml"
# 0 "<built-in>"
# 0 "<command-line>"
# 1 "/usr/include/stdc-predef.h" 1 3 4
# 0 "<command-line>" 2
# 1 "watch.pml"



typedef Slot {
 byte key;
 short value
}
Slot table[4]
chan out = [4] of { byte }
short sum

trace {
 do
 :: out!0
 :: out!1
 :: out!2
 :: out!3
 od
}

init {
 byte i

 for (i : 0 .. 4 - 1) {
  table[i].key = i
  table[i].value = 10 * i
 }
 for (i : 0 .. 4 - 1)
 {
  sum = sum + table[i].value
  out!table[i].key
 }
 select (i : 2 .. 2)
 printf("sum %d, chosen %d\n", sum, i)
}
