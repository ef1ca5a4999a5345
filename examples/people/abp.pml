/*
 *  Alternating bit protocol over a lossy medium.
 */
#define MAX 3

mtype = { DATA, ACK, LOST };

typedef Frame {
	mtype kind;
	bit seq;
	byte body
};

chan toR = [1] of { Frame };
chan toS = [1] of { Frame };

inline deliver(ch, f)
{
	if
	:: ch!f
	:: skip /* lost */
	fi
}

active proctype Sender()
{
	Frame out, in;
	byte n = 0;

	out.kind = DATA;
	out.seq = 0;
	do
	:: n == MAX -> break
	:: n < MAX ->
		out.body = n;
resend:		deliver(toR, out);
		if
		:: toS?in ->
			if
			:: in.seq == out.seq -> n++; out.seq = 1 - out.seq
			:: else -> goto resend
			fi
		:: timeout -> goto resend
		fi
	od
}

active proctype Receiver()
{
	Frame got, ack;
	bit expect = 0;
	byte last = 0;

end:	do
	:: toR?got ->
		if
		:: got.seq == expect ->
			assert(got.body == last);
			last++;
			expect = 1 - expect
		:: else
		fi;
		ack.kind = ACK; ack.seq = got.seq;
		deliver(toS, ack)
	od
}
