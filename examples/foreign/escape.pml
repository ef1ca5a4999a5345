#define FAIL	(error == 1)

bool error
byte steps

active proctype Works()
{
	{
		steps = 1
		steps = 2
		atomic {
			steps = 3
			error = 1
		}
		d_step {
			steps = 4
			steps = 5
		}
	} unless {
		FAIL
		printf("stopped at %d\n", steps)
	}
	timeout
	assert(steps == 3)
}
