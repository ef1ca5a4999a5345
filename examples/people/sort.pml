/* Bubble sort, with a check. Formal methods for first years. */
#define SIZE 5

byte a[SIZE] = { 5, 3, 1, 4, 2 };

inline swap(x, y) {
  byte tmp;
  tmp = x;
  x = y;
  y = tmp
}

inline display() {
  byte k;
  printf("a =");
  for (k : 0 .. SIZE - 1) {
    printf(" %d", a[k])
  }
  printf("\n")
}

inline find(what, where) {
  where = 0;
  do
  :: where >= SIZE -> goto found
  :: a[where] == what -> goto found
  :: else -> where++
  od;
found:
  skip
}

init {
  byte i, j, at;
  display();
  find(4, at);
  assert(at == 3);
  for (i : 0 .. SIZE - 2) {
    for (j : 0 .. SIZE - 2 - i) {
      if
      :: a[j] > a[j + 1] -> swap(a[j], a[j + 1])
      :: else
      fi
    }
  }
  display();
  find(4, at);
  assert(at == 3);
  find(9, at);
  assert(at == SIZE);
  for (i : 1 .. SIZE - 1) { assert(a[i - 1] <= a[i]) }
}
