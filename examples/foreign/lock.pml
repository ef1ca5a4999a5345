/*
 * Peterson's lock for two processes, as a lecture has it: macros, a property,
 * a monitor, and no separator at the end of a line.
 */
#define N	2
#define other(i)	(1 - (i))

bool wants[N]
byte turn
byte inside

ltl mutual { [] (inside < 2) }
ltl enters { []<> (inside == 1) -> <> (inside == 0) }

active [N] proctype Process()
{
	wants[_pid] = true
	turn = other(_pid)
	(!wants[other(_pid)] || turn == _pid)
critical:
	inside++
	assert(inside == 1)	/* alone */
	inside--
	wants[_pid] = false
}
