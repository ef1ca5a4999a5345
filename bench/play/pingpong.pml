chan ping = [0] of { byte };
chan pong = [0] of { byte };
active proctype A() { byte x; do :: ping!x; pong?x od }
active proctype B() { byte y; do :: ping?y; y++; pong!y od }
