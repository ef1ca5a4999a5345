# 0 "strings.pml"
# 0 "<built-in>"
# 0 "<command-line>"
# 1 "/usr/include/stdc-predef.h" 1 3 4
# 0 "<command-line>" 2
# 1 "strings.pml"




init {
 printf("hello, world\n")
 printf("one line\n")

 printf("%d\n",
  10)
 printf("/* no comment */ ; { } // neither\n")
}
