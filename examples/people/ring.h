/* shared by the models of chapter 5 */
#ifndef RING_H
#define RING_H
#define N 4
#define L 8		/* >= 2*N */
#define next(i) (((i) + 1) % N)
mtype = { one, two, winner };
#endif
