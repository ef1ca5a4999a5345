/* A channel's name at the end of a line is no statement that a send goes on
   with: the end of the line divides them, as in Spin 6. */
chan c = [2] of { byte }
bool ready
byte x = 1, y

active proctype P()
{
	x
	!ready
	y = x
	-y
	c!x
	c!y
	(c?[1])
	(len(c) == 2)
	c?x
}
