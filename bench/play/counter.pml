byte x;
active proctype P() { do :: x = x + 1 od }
