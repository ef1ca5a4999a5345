// TCP connection setup, three-way handshake (protocol design seminar)
mtype:segment = { SYN, SYNACK, FIN, ACK }
mtype:status = { CLOSED, LISTEN, SYN_SENT, SYN_RCVD, ESTABLISHED }

chan net[2] = [2] of { mtype:segment, byte }

mtype:status state[2] = CLOSED

#define client 0
#define server 1

active proctype Client()
{
  byte seq = 10, peer

  state[client] = SYN_SENT
  net[server] ! SYN(seq)
  net[client] ? SYNACK(peer)
  state[client] = ESTABLISHED
  net[server] ! ACK(peer + 1)
}

active proctype Server()
{
  byte peer, answer
  byte isn = 70

  state[server] = LISTEN
  net[server] ? SYN(peer)
  state[server] = SYN_RCVD
  net[client] ! SYNACK(isn)
  do
  :: net[server] ? ACK(answer) ->
     assert(answer == isn + 1)
     state[server] = ESTABLISHED
     break
  :: net[server] ? FIN(_) -> assert(false)
  od
}

#define both (state[client] == ESTABLISHED && state[server] == ESTABLISHED)
ltl connects { <> both }
