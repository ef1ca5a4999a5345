// Exercise sheet 7, dining philosophers (solution)
#define N       3
#define LEFT(i)  (i)
#define RIGHT(i) ((i + 1) % N)

#define TAKE(f)  atomic { !fork[f] -> fork[f] = true }
#define PUT(f)   fork[f] = false

bool fork[N] = { false, false, false };
byte eating = 0;

proctype Phil(byte id)
{
    byte first = LEFT(id), second = RIGHT(id);
    if
    :: id == N - 1 -> first = RIGHT(id); second = LEFT(id);
    :: else
    fi;
    TAKE(first);
    TAKE(second);
    eating++;
    printf("MSC: philosopher %d eats\n", id);
    assert(eating < N);
    eating--;
    PUT(second);
    PUT(first);
}

init {
    byte i;
    atomic {
        for (i : 0 .. N - 1) {
            run Phil(i);
        }
    }
    (_nr_pr == 1);
    assert(eating == 0);
}
