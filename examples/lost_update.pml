/* A lost update: two processes read a counter, add one and write it back. Where both read the same number, one is lost. */
byte counter, done;

active [2] proctype Adder() {
    byte mine;
    mine = counter;
    counter = mine + 1;
    done++
}

active proctype Judge() {
    done == 2;
    assert(counter == 2)
}
