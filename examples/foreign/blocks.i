# 0 "blocks.pml"
# 0 "<built-in>"
# 0 "<command-line>"
# 1 "/usr/include/stdc-predef.h" 1 3 4
# 0 "<command-line>" 2
# 1 "blocks.pml"



byte total
chan box = [3] of { byte }

inline put(value) {
  byte twice = 2 * value
  box!twice
  total = total + twice
}

inline put_both(value) {
  byte next
  put(value)
  next = value + 1
  put(next)
}

active proctype Worker() {
  byte turn = 1
  do
  :: turn <= 2 ->
     byte before = total
     put(turn)
     { byte seen; box?seen; printf("took %d of %d\n", seen, total - before) }
     byte marks[2]
     marks[0]++
     marks[1]++
     printf("%d, %d\n", marks[0], marks[1])
     turn++
  :: else -> break
  od
  atomic {
    byte seen = 7, more
    put_both(seen)
    more++
    box?seen
    printf("took %d, %d\n", seen, more)
  }
  box?_
}
