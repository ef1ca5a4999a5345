// 255 processes, each made by the one before it with a channel of its own, die from the youngest on and are made again. There is never
// a choice.
proctype P() {
	chan c = [2] of { byte, byte };
	byte a[4];
	c!1,2;
	if
	:: _nr_pr < 255 -> run P()
	:: else
	fi;
	(_nr_pr == _pid + 1)
}
init {
	do
	:: run P(); (_nr_pr == 1)
	od
}
