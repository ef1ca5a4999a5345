/* Two-phase commit, distributed systems course. Votes are fixed here; play with them. */
#define N 3

mtype = { vote_req, yes, no, commit, abort }

byte vote[N] = { 1, 1, 0 }
chan to_part[N] = [1] of { mtype }
chan to_coord = [N] of { mtype, byte }
mtype decision[N]

proctype participant(byte id) {
  to_part[id] ? vote_req
  if
  :: vote[id] -> to_coord ! yes(id)
  :: else -> to_coord ! no(id)
  fi
  if
  :: to_part[id] ? commit -> decision[id] = commit
  :: to_part[id] ? abort -> decision[id] = abort
  fi
}

init {
  byte i, id, yeses = 0
  atomic {
    for (i in vote) {
      run participant(i)
    }
  }
  for (i in to_part) { to_part[i] ! vote_req }
  for (i : 1 .. N) {
    if
    :: to_coord ? yes(id) -> yeses++
    :: to_coord ? no(id)
    fi
  }
  if
  :: yeses == N -> for (i in to_part) { to_part[i] ! commit }
  :: else -> for (i in to_part) { to_part[i] ! abort }
  fi
  _nr_pr == 1
  for (i in decision) { assert(decision[i] == abort) }
}
