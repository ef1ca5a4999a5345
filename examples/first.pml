byte x = 254, y;
active proctype A() { x = x + 3; y--; x == 1; skip -> x = x - y }
