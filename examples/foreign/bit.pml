// The alternating bit protocol over channels that lose nothing: a sender, a
// receiver, and a claim that a verifier would take.

#define WINDOW 1
#define MSGS 2

mtype = { data, ack }

chan to_receiver = [WINDOW] of { mtype, bit, byte }
chan to_sender = [WINDOW] of { mtype, bit }

inline next(b)
{
	b = 1 - b
}

active proctype Sender()
{
	bit seq
	byte n

	do
	:: n < MSGS ->
		to_receiver!data, seq, n
		to_sender?ack, eval(seq)
		next(seq)
		n++
	:: else ->
		break
	od
	printf("sent %d\n", n)
}

active proctype Receiver()
{
	bit seen
	byte value

end:	do
	:: to_receiver?data, seen, value ->
		printf("got %d\n", value)
		to_sender!ack(seen)
	od
}

never {	/* <> Receiver stays idle */
T0_init:
	do
	:: (len(to_receiver) == 0) -> goto accept_S1
	:: (1) -> goto T0_init
	od;
accept_S1:
	do
	:: (len(to_receiver) == 0) -> goto accept_S1
	od
}
