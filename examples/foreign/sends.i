# 0 "sends.pml"
# 0 "<built-in>"
# 0 "<command-line>"
# 1 "/usr/include/stdc-predef.h" 1 3 4
# 0 "<command-line>" 2
# 1 "sends.pml"


chan c = [2] of { byte }
bool ready
byte x = 1, y

active proctype P()
{
 x
 !ready
 y = x
 -y
 c!x
 c!y
 (c?[1])
 (len(c) == 2)
 c?x
}
