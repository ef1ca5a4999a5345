/* labels where a body ends, as new Spin allows them */
byte x

active proctype Ends()
{
	if
	:: x == 0 -> goto done
	:: x > 0
	fi
	x = 9
done:
}

active proctype Loops()
{
	do
	:: x < 2
	   x++
	:: x >= 2
	   goto stop
	od
stop:	/* a label, and a comment behind it */
}
