# 0 "parcels.pml"
# 0 "<built-in>"
# 0 "<command-line>"
# 1 "/usr/include/stdc-predef.h" 1 3 4
# 0 "<command-line>" 2
# 1 "parcels.pml"






typedef Parcel {
 byte weight
 bool fragile
 short to, from
}

mtype = { load, drop }

chan shelf = [3] of { Parcel }
chan vans[2] = [1] of { mtype, Parcel, byte }

active proctype Clerk()
{
 Parcel mine, seen
 byte waiting, heavy

 mine.weight = 7
 mine.to = 40
 shelf!mine
 mine.weight = 2
 mine.fragile = true
 shelf!mine
 for (seen in shelf) {
  waiting++
  if
  :: seen.weight > 5 -> heavy++
  :: else
  fi
  for (mine in shelf) { skip }
 }
 assert(waiting == 2 && heavy == 1 && mine.fragile)
 do
 :: shelf?[mine] ->
  shelf?<seen>;
  shelf?mine
  atomic { nfull(vans[1]) -> vans[1]!load(mine, waiting) }
  for (seen in shelf) {
   printf("behind it %d to %d\n", seen.weight, seen.to)
  }
  vans[1]??load,seen,eval(waiting)
  waiting--
  printf("%d to %d\n", seen.weight, seen.to)
 :: empty(shelf) -> break
 od
}
