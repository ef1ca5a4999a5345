# 0 "labels.pml"
# 0 "<built-in>"
# 0 "<command-line>"
# 1 "/usr/include/stdc-predef.h" 1 3 4
# 0 "<command-line>" 2
# 1 "labels.pml"

byte x

active proctype Ends()
{
 if
 :: x == 0 -> goto done
 :: x > 0
 fi
 x = 9
done:
}

active proctype Loops()
{
 do
 :: x < 2
    x++
 :: x >= 2
    goto stop
 od
stop:
}
