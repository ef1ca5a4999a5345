/* A lock that lets two in: each process sees that the lock is open, and closes it only then. */
bool locked;
byte inside;

active [2] proctype Process() {
    !locked;
    locked = true;
    inside++;
    printf("inside: %d\n", inside);
    inside--;
    locked = false
}
