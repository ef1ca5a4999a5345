# 0 "marked.pml"
# 0 "<built-in>"
# 0 "<command-line>"
# 1 "/usr/include/stdc-predef.h" 1 3 4
# 0 "<command-line>" 2
# 1 "marked.pml"
# 100 "marked.pml"
byte x
# 200 "marked.pml"
init {
 x = 1
 assert(x == 1)
# 300 "marked.pml"
 x = 2
}
