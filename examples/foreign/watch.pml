/* A trace over a channel, and loops over ranges. */
#define SIZE 4

typedef Slot {
	byte key;
	short value
}
Slot table[SIZE]
chan out = [SIZE] of { byte }
short sum

trace {
	do
	:: out!0
	:: out!1
	:: out!2
	:: out!3
	od
}

init {
	byte i

	for (i : 0 .. SIZE - 1) {
		table[i].key = i
		table[i].value = 10 * i
	}
	for (i : 0 .. SIZE - 1)
	{
		sum = sum + table[i].value
		out!table[i].key
	}
	select (i : 2 .. 2)
	printf("sum %d, chosen %d\n", sum, i)
}
