/* OS course: priority inversion */
mtype = { free, busy };
mtype mutex = free;
byte inside;

active proctype low() priority 1
{
	atomic { mutex == free -> mutex = busy };
	inside++; inside--;
	mutex = free
}

active proctype high() priority 10
{
	atomic { mutex == free -> mutex = busy };
	inside++; assert(inside == 1); inside--;
	mutex = free
}
