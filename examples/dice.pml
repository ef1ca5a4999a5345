/* Two players roll a die each, and the higher number wins; on a tie nobody does. */
byte first, second, winner;

inline roll(die) {
    select (die : 1 .. 6)
}

init {
    roll(first);
    roll(second);
    if
    :: first > second -> winner = 1
    :: first < second -> winner = 2
    :: else
    fi;
    printf("%d against %d: winner %d\n", first, second, winner)
}
