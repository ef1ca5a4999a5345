# 0 "include.pml"
# 0 "<built-in>"
# 0 "<command-line>"
# 1 "/usr/include/stdc-predef.h" 1 3 4
# 0 "<command-line>" 2
# 1 "include.pml"
# 1 "shared.h" 1



typedef Counter {
 byte value;
 bool done
}

inline add(c)
{
 if
 :: c.value < 3
    c.value++
 :: else
    c.done = true
 fi
 c.done = c.done || c.value == 3
}
# 2 "include.pml" 2

Counter hits

active proctype Counts()
{
 do
 :: !hits.done
    add(hits)
    printf("%d\n", hits.value)
 :: hits.done
    break
 od
}
