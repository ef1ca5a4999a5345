# 0 "lock.pml"
# 0 "<built-in>"
# 0 "<command-line>"
# 1 "/usr/include/stdc-predef.h" 1 3 4
# 0 "<command-line>" 2
# 1 "lock.pml"







bool wants[2]
byte turn
byte inside

ltl mutual { [] (inside < 2) }
ltl enters { []<> (inside == 1) -> <> (inside == 0) }

active [2] proctype Process()
{
 wants[_pid] = true
 turn = (1 - (_pid))
 (!wants[(1 - (_pid))] || turn == _pid)
critical:
 inside++
 assert(inside == 1)
 inside--
 wants[_pid] = false
}
