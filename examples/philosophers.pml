/* Dining philosophers: three of them, each of whom takes the fork at the left first. They can all starve. */
chan fork[3] = [1] of { bit };

proctype Philosopher(chan left; chan right) {
    left?_;
    right?_;
    printf("philosopher %d eats\n", _pid);
    right!1;
    left!1
}

init {
    atomic {
        fork[0]!1;
        fork[1]!1;
        fork[2]!1;
        run Philosopher(fork[0], fork[1]);
        run Philosopher(fork[1], fork[2]);
        run Philosopher(fork[2], fork[0])
    }
}
