/* A ticket lock: who comes takes a number, and waits until it is served. */
byte next, served, inside;

inline lock(number) {
    d_step { number = next; next++ };
    served == number
}

inline unlock() {
    served++
}

active [2] proctype P() {
    byte mine, round;
    for (round : 1 .. 2) {
        lock(mine);
        inside++;
        assert(inside == 1);
        inside--;
        unlock()
    }
}
