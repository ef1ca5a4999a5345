mtype = { ask, answer };
chan line = [0] of { mtype, byte };
proctype Clerk(byte most) {
	byte n;
	end: do
	:: line?ask,n -> atomic { printf("%d of %d\n", n, most); line!answer,n + 1 }
	od
}
init {
	byte back;
	run Clerk(3);
	line!ask,1;
	line?answer,back;
	assert back == 2
}
