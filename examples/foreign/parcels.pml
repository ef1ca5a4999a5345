/*
 * A post office: a parcel is a record, which is sent whole and received whole,
 * and those that wait on a shelf are gone through, one by one.
 */
#define ROOM	3

typedef Parcel {
	byte weight
	bool fragile
	short to, from
}

mtype = { load, drop }

chan shelf = [ROOM] of { Parcel }
chan vans[2] = [1] of { mtype, Parcel, byte }

active proctype Clerk()
{
	Parcel mine, seen
	byte waiting, heavy

	mine.weight = 7
	mine.to = 40
	shelf!mine
	mine.weight = 2
	mine.fragile = true
	shelf!mine
	for (seen in shelf) {
		waiting++
		if
		:: seen.weight > 5 -> heavy++
		:: else
		fi
		for (mine in shelf) { skip }
	}
	assert(waiting == 2 && heavy == 1 && mine.fragile)
	do
	:: shelf?[mine] ->
		shelf?<seen>;
		shelf?mine
		atomic { nfull(vans[1]) -> vans[1]!load(mine, waiting) }
		for (seen in shelf) {
			printf("behind it %d to %d\n", seen.weight, seen.to)
		}
		vans[1]??load,seen,eval(waiting)
		waiting--
		printf("%d to %d\n", seen.weight, seen.to)
	:: empty(shelf) -> break
	od
}
