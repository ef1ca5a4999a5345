/* Mutual exclusion by Peterson: each process raises its flag, lets the other go first, and waits. */
bool flag[2];
byte turn, inside;

active [2] proctype Process() {
    flag[_pid] = true;
    turn = 1 - _pid;
    (!flag[1 - _pid] || turn == _pid);
    inside++;
    assert(inside == 1);
    inside--;
    flag[_pid] = false
}
