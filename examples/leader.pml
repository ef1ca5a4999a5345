/* Election of a leader in a ring: each node sends its number on, and hands on greater ones; one whose own comes back leads. */
mtype = { candidate, leader };
chan ring[3] = [2] of { mtype, byte };

proctype Node(chan in; chan out; byte number) {
    byte other;
    out!candidate(number);
    do
    :: in?candidate(other) ->
        if
        :: other > number -> out!candidate(other)
        :: other == number -> printf("node %d leads\n", number); out!leader(number)
        :: else
        fi
    :: in?leader(other) ->
        if
        :: other != number -> out!leader(other)
        :: else
        fi;
        break
    od
}

init {
    atomic {
        run Node(ring[0], ring[1], 2);
        run Node(ring[1], ring[2], 3);
        run Node(ring[2], ring[0], 1)
    }
}
