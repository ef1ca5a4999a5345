/*
 * Single-decree Paxos, small scope: one proposer per ballot, three acceptors.
 * Part of my thesis. Messages are records.
 */
#define ACCEPTORS 3
#define MAJORITY (ACCEPTORS / 2 + 1)
#define NONE 0

typedef proposal {
  byte ballot;
  byte value
}

typedef promise {
  byte from;
  byte last;
  byte value
}

chan prepare[ACCEPTORS] = [2] of { proposal };
chan accept[ACCEPTORS]  = [2] of { proposal };
chan promises[3]        = [ACCEPTORS] of { promise };
byte chosen = NONE, votes[3];

proctype Proposer(byte ballot; byte wish) {
  proposal p;
  promise r;
  byte count = 0, best = 0, i;

  p.ballot = ballot;
  p.value = NONE;
  for (i : 0 .. ACCEPTORS - 1) {
    prepare[i]!p
  }
  do
  :: count < MAJORITY ->
     promises[ballot]?r;
     count++;
     if
     :: r.last > best -> best = r.last; wish = r.value
     :: else
     fi
  :: else -> break
  od;
  p.value = wish;
  for (i : 0 .. ACCEPTORS - 1) {
    accept[i]!p
  }
}

proctype Acceptor(byte me) {
  byte highest = 0, last = 0, value = NONE;
  proposal m;
  promise answer;

end_acceptor:
  do
  :: atomic { prepare[me]?m ->
       if
       :: m.ballot > highest ->
          highest = m.ballot;
          answer.from = me; answer.last = last; answer.value = value;
          promises[m.ballot]!answer
       :: else
       fi }
  :: atomic { accept[me]?m ->
       if
       :: m.ballot >= highest ->
          highest = m.ballot; last = m.ballot; value = m.value;
          votes[m.ballot]++;
          if
          :: votes[m.ballot] == MAJORITY ->
             assert(chosen == NONE || chosen == m.value);
             chosen = m.value
          :: else
          fi
       :: else
       fi }
  od
}

init {
  byte a;
  atomic {
    for (a : 0 .. ACCEPTORS - 1) { run Acceptor(a) }
    run Proposer(1, 7);
    run Proposer(2, 8)
  }
}
