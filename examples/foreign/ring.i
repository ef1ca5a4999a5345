# 0 "ring.pml"
# 0 "<built-in>"
# 0 "<command-line>"
# 1 "/usr/include/stdc-predef.h" 1 3 4
# 0 "<command-line>" 2
# 1 "ring.pml"
# 10 "ring.pml"
chan ring[3] = [1] of { byte }
byte hops

proctype Node(byte id)
{
 byte value

 do
 :: ring[id] ? value
    if
    :: value > 0
       hops++
       ring[(id + 1) % 3] ! value - 1
    :: else
       printf("node %d is last, hops %d\n", id, hops)
       ring[(id + 1) % 3] ! 0
       break
    fi
 od
}

init {
 byte i

 atomic {
  for (i : 0 .. 3 - 1) {
   run Node(i)
  }
  ring[0] ! 5
 }
}
