/* two tasks that are enabled in turn by the kernel */
bool toggle = true;
byte cnt;

active proctype A() provided (toggle == true)
{
L:	cnt++;
	printf("A\n");
	toggle = false;
	if :: cnt < 4 -> goto L :: else fi
}

active proctype B() provided (toggle == false)
{
L:	cnt--;
	printf("B\n");
	toggle = true;
	goto L
}
