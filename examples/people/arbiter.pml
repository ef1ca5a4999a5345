/* Round-robin bus arbiter, three masters. Clocked by 'tick'. */
#define MASTERS 3

bit req[MASTERS], gnt[MASTERS];
byte last = MASTERS - 1;
unsigned cycles : 4 = 0;

inline clear_grants() {
  byte m;
  for (m in gnt) { gnt[m] = 0 }
}

inline arbitrate() {
  byte n, c;
  c = last;
  for (n : 1 .. MASTERS) {
    c = (c + 1) % MASTERS;
    if
    :: req[c] -> gnt[c] = 1; last = c; break
    :: else
    fi
  }
}

active proctype Clock() {
  byte who;
  do
  :: cycles == 6 -> break
  :: else ->
    select (who : 0 .. 2);
    req[who] = 1;
    atomic { clear_grants(); arbitrate() }
    assert(gnt[0] + gnt[1] + gnt[2] == 1);
    req[last] = 0;
    cycles++
  od;
  atomic { clear_grants() }
  assert(gnt[0] + gnt[1] + gnt[2] == 0)
}
