/* Mutual exclusion by Dekker: where both want to go in, the one whose turn it is stays, and the other steps back. */
bool wants[2];
byte turn, inside;

active [2] proctype Process() {
    byte other = 1 - _pid;
    wants[_pid] = true;
    do
    :: wants[other] ->
        if
        :: turn == other ->
            wants[_pid] = false;
            turn == _pid;
            wants[_pid] = true
        :: else
        fi
    :: else -> break
    od;
    inside++;
    assert(inside == 1);
    inside--;
    turn = other;
    wants[_pid] = false
}
