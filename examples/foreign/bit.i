# 0 "bit.pml"
# 0 "<built-in>"
# 0 "<command-line>"
# 1 "/usr/include/stdc-predef.h" 1 3 4
# 0 "<command-line>" 2
# 1 "bit.pml"






mtype = { data, ack }

chan to_receiver = [1] of { mtype, bit, byte }
chan to_sender = [1] of { mtype, bit }

inline next(b)
{
 b = 1 - b
}

active proctype Sender()
{
 bit seq
 byte n

 do
 :: n < 2 ->
  to_receiver!data, seq, n
  to_sender?ack, eval(seq)
  next(seq)
  n++
 :: else ->
  break
 od
 printf("sent %d\n", n)
}

active proctype Receiver()
{
 bit seen
 byte value

end: do
 :: to_receiver?data, seen, value ->
  printf("got %d\n", value)
  to_sender!ack(seen)
 od
}

never {
T0_init:
 do
 :: (len(to_receiver) == 0) -> goto accept_S1
 :: (1) -> goto T0_init
 od;
accept_S1:
 do
 :: (len(to_receiver) == 0) -> goto accept_S1
 od
}
