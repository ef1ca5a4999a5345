/* Subtypes of mtype, and loops over arrays. */
#define SIZE 3

mtype:fruit = { apple, pear }

mtype:fruit basket[SIZE]
chan sold = [1] of { mtype:fruit, byte }
chan tills[2] = [1] of { byte }

active proctype Grower() {
  byte i
  for (i in basket) {
    if
    :: basket[i] = apple
    :: basket[i] = pear
    fi
  }
  for (i in basket) { printf("%e in %d\n", basket[i], i) }
  sold!basket[0], i
}

active proctype Shop() {
  mtype:fruit bought; byte count, t
  sold?bought, count
  assert(count == SIZE && (bought == apple || bought == pear))
  for (t in tills)
  {
    tills[t]!count
  }
}
