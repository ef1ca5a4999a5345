#define NODES	3
#define NONE	255
#ifndef START
#define START	5
#endif

/* A number goes round a ring, and each node
   takes one off: the last one says so. */

chan ring[NODES] = [1] of { byte }
byte hops

proctype Node(byte id)
{
	byte value

	do
	:: ring[id] ? value
	   if
	   :: value > 0
	      hops++
	      ring[(id + 1) % NODES] ! value - 1
	   :: else
	      printf("node %d is last, hops %d\n", id, hops)
	      ring[(id + 1) % NODES] ! 0
	      break
	   fi
	od
}

init {
	byte i

	atomic {
		for (i : 0 .. NODES - 1) {
			run Node(i)
		}
		ring[0] ! START
	}
}
