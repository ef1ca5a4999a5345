/* Actors with mailboxes, priorities of messages by sorted sends.
 * Written for a seminar on Erlang-like languages.
 */
#define ACTORS 3
#define SEND(to, prio, what) box[to]!!prio, _pid, what

mtype = { ping, pong, stop }

chan box[ACTORS] = [4] of { byte, pid, mtype }
byte pongs

active [ACTORS - 1] proctype Actor()
{
  pid sender
  byte weight[3] = { 5, 1, 9 }
  mtype what

  do
  :: box[_pid]??_, sender, stop -> break
  :: box[_pid]??[_, eval(2), ping] && !box[_pid]??[_, eval(2), stop] ->
     box[_pid]??weight[1], sender, ping
     if
     :: nfull(box[sender]) -> SEND(sender, weight[0] - weight[1], pong)
     :: full(box[sender]) -> skip
     fi
  od
  assert(weight[2] == 9 && weight[0] == 5)
}

active proctype Root()
{
  byte k

  atomic {
    SEND(0, 2, ping)
    SEND(1, 3, ping)
  }
  do
  :: pongs == 2 -> break
  :: box[_pid]?k, _, pong -> pongs++; printf("pong of weight %d, %d left\n", k, len(box[_pid]))
  od
  SEND(0, 9, stop); SEND(1, 9, stop)
end: empty(box[0]) && empty(box[1])
}
