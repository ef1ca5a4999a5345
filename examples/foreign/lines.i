# 0 "lines.pml"
# 0 "<built-in>"
# 0 "<command-line>"
# 1 "/usr/include/stdc-predef.h" 1 3 4
# 0 "<command-line>" 2
# 1 "lines.pml"

mtype = { one, two }
typedef pair {
  hidden byte a
  unsigned b : 3
  bit c
  short d
}
chan c = [2] of { byte }
chan d = [2] of { byte, byte }
byte n
pair p

proctype child(byte x) {
  local byte y = x
  n = n + y
}

init {
  xr c
  hidden byte h = 1
  unsigned u : 4 = 5
  int z[3]
  pid who
  mtype m = two
  byte late[4]
  byte k -> d!k, late[1]
  n = '\f'
  select (h : 2 .. 2)
  printm(m)
  ~n
  len(c) == 0
  nfull(c)
  empty(c)
  c!u
  nempty(c)
  !(n == 0)
  -n
  (n > 0)
  (n - h
  - 1 > 0)
  assert(n == 12)
  atomic { n++ }
  d_step { n-- }
  { skip }
  c?h
  true
  break_here: skip
  who = 0
  run child(3)
  timeout
  for (h in late) { n++ }
  if
  :: n == 19 -> goto done
  :: else
  fi
done:
  printf("%d two %d\n",
           n, h)
}
