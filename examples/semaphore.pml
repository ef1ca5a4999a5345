/* A semaphore as a process: it gives its one permission to one user after another. */
mtype = { enter, leave };
chan semaphore = [0] of { mtype };
byte inside;

active proctype Semaphore() {
end:
    do
    :: semaphore!enter -> semaphore?leave
    od
}

active [2] proctype User() {
    semaphore?enter;
    inside++;
    assert(inside == 1);
    inside--;
    semaphore!leave
}
