/*
 * What Spin takes besides: a comma behind the last name of an mtype, names
 * without commas, sizes that are computed, and claims on channels before
 * declarations.
 */
#define N	(3)

mtype = { idle, busy, }
mtype = { cold
	warm hot,, boiling }

byte load[N + 1]
chan work = [2 * N - 4] of { byte }

active proctype Hub()
{
	xs work
	byte i = 1, sum = 2
	mtype state = warm
	byte copy[(N + 1) * 2 - 8 / N], one[1]

	for (i in load) {
		load[i] = i + sum
	}
	for (i in copy) {
		copy[i] = i
	}
	work!load[3]
	work!copy[5]
	state = boiling
	printf("%e %d %d\n", state, load[3], sum)
}
