/* Readers and writers: any number may read at once, one alone may write. */
byte readers, writers;

active [2] proctype Reader() {
    atomic { writers == 0 -> readers++ };
    assert(writers == 0);
    readers--
}

active [2] proctype Writer() {
    atomic { readers == 0 && writers == 0 -> writers++ };
    assert(readers == 0 && writers == 1);
    writers--
}
