/* OS course, assignment 2: the bounded buffer with semaphores */
#define SLOTS 2
#define ITEMS 4

int buffer[SLOTS] = { 0 };
byte in_at = 0, out_at = 0;
byte mutex = 1, empty_slots = SLOTS, full_slots = 0;

inline wait(s)   { atomic { s > 0 -> s-- } }
inline signal(s) { s++ }

active proctype producer()
{
    int item = 1;
    do
    :: item > ITEMS -> break
    :: else ->
        wait(empty_slots);
        wait(mutex);
        buffer[in_at] = item * item;
        in_at = (in_at + 1) % SLOTS;
        signal(mutex);
        signal(full_slots);
        item++
    od
}

active proctype consumer()
{
    int got, expected = 1;
    do
    :: expected > ITEMS -> break
    :: else ->
        wait(full_slots);
        wait(mutex);
        got = buffer[out_at];
        out_at = (out_at + 1) % SLOTS;
        signal(mutex);
        signal(empty_slots);
        assert(got == expected * expected);
        printf("consumed %d\n", got);
        expected++
    od
}
