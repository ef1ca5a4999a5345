# 0 "escape.pml"
# 0 "<built-in>"
# 0 "<command-line>"
# 1 "/usr/include/stdc-predef.h" 1 3 4
# 0 "<command-line>" 2
# 1 "escape.pml"


bool error
byte steps

active proctype Works()
{
 {
  steps = 1
  steps = 2
  atomic {
   steps = 3
   error = 1
  }
  d_step {
   steps = 4
   steps = 5
  }
 } unless {
  (error == 1)
  printf("stopped at %d\n", steps)
 }
 timeout
 assert(steps == 3)
}
