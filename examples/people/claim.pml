/* a request is always answered: the claim below was made by ltl2ba -f '!([] (p -> <> q))' */
#define p (request == 1)
#define q (request == 0)

byte request;

active proctype Client() {
  byte n = 0;
  do
  :: n < 3 -> request == 0; request = 1; n++
  :: n == 3 -> break
  od
}

active proctype Server() {
end:
  do
  :: request == 1 -> request = 0
  od
}

never { /* !([] (p -> <> q)) */
T0_init:    /* init */
	if
	:: (1) -> goto T0_init
	:: (!q && p) -> goto accept_S2
	fi;
accept_S2:    /* 1 */
	if
	:: (!q) -> goto accept_S2
	fi;
}
