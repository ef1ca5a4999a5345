# 0 "basket.pml"
# 0 "<built-in>"
# 0 "<command-line>"
# 1 "/usr/include/stdc-predef.h" 1 3 4
# 0 "<command-line>" 2
# 1 "basket.pml"



mtype:fruit = { apple, pear }

mtype:fruit basket[3]
chan sold = [1] of { mtype:fruit, byte }
chan tills[2] = [1] of { byte }

active proctype Grower() {
  byte i
  for (i in basket) {
    if
    :: basket[i] = apple
    :: basket[i] = pear
    fi
  }
  for (i in basket) { printf("%e in %d\n", basket[i], i) }
  sold!basket[0], i
}

active proctype Shop() {
  mtype:fruit bought; byte count, t
  sold?bought, count
  assert(count == 3 && (bought == apple || bought == pear))
  for (t in tills)
  {
    tills[t]!count
  }
}
