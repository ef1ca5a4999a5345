/*
 * A press that stamps pieces: the fields of its records end with the line, and
 * labels stand before the end of an option.
 */
#define PIECES	2

typedef Press {
	byte force = 3
	short done[PIECES]
	bool is_open
}

typedef Line {
	Press press
	chan belt = [1] of { byte }
	byte left = PIECES
}

Line line

active proctype Feeder()
{
	do
	:: line.left > 0 ->
		line.belt!line.left
		line.left--
again:
	:: line.left == 0 ->
		break
never_here:
	od
}

active proctype Stamp()
{
	byte piece
	line.press.is_open = true
	do
	:: line.belt?piece ->
		if
		:: piece > 1 ->
			line.press.done[1] = line.press.force
first:
		:: else ->
			line.press.done[0] = line.press.force + 1
			break
last:
		fi
	od
	line.press.is_open = false
end:
}
