/* Traffic lights at a crossing; exam preparation */
mtype = { red, yellow, green };

mtype ns = red, ew = red;
byte turn;

#define safe  !(ns != red && ew != red)
#define nsgo  (ns == green)
#define ewgo  (ew == green)

ltl safety { [] safe }
ltl fairness { ([] <> nsgo) && ([] <> ewgo) }

active proctype NS() {
  byte i;
  for (i : 1 .. 2) {
    turn == 0;
    ns = green; printf("ns %e\n", ns);
    ns = yellow;
    ns = red;
    turn = 1
  }
}

active proctype EW() {
  byte i;
  for (i : 1 .. 2) {
    turn == 1;
    ew = green; printf("ew %e\n", ew);
    ew = yellow;
    ew = red;
    turn = 0
  }
}
