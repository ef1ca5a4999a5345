/* Operating systems 1 - Readers/Writers
   READERS and WRITERS can be given with -D */
#ifndef READERS
#define READERS 2
#endif
#ifndef WRITERS
#define WRITERS 1
#endif

byte readers, writers;
byte waiting;

proctype Reader() {
  d_step {
    byte k = waiting;
    waiting = k + 1
  }
  atomic { writers == 0; readers++; waiting-- }
  assert(writers == 0)
  readers--
}

proctype Writer() {
  atomic { readers == 0 && writers == 0 -> writers++ }
  assert(readers == 0 && writers == 1)
  writers--
}

init {
  pid me = _pid
  atomic {
    byte i = 0
    do
    :: i < READERS -> run Reader(); i++
    :: else -> break
    od
    i = 0
    do
    :: i < WRITERS -> run Writer(); i++
    :: else -> break
    od
  }
  _nr_pr == 1
  assert(me == 0 && readers + writers + waiting == 0)
}
