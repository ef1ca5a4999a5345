typedef R { byte f[2]; short g };
mtype = { ack, nak };
R r[2];
mtype m;
unsigned u : 3;
int i = 2147483647;
init { byte k = 1; r[k].f[1] = 300; m = nak; u = 9; i++; k = r[1].f[1] >> 2; r[0].g = -40000; u = 9 / (k - 11) }
