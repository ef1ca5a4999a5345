/* Lecture 4: Peterson's algorithm for two processes.
 * Try: spin -a -f mutex.pml, and then remove the line with turn.
 */
#define other (1 - _pid)

bool want[2];
byte turn = 0;
byte incs = 0;   // how many are in the critical section

active [2] proctype P()
{
  byte rounds = 0;
  do
  :: rounds < 2 ->
    want[_pid] = true
    turn = other
    (want[other] == false || turn == _pid)
cs: incs++
    assert(incs == 1)
    incs--
    want[_pid] = false
    rounds++
  :: else -> break
  od
}

ltl mutex { [] (incs <= 1) }
ltl live { [] (want[0] -> <> (P[0]@cs)) }
