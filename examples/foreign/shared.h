/* what the models of this folder share */
#define LIMIT 3

typedef Counter {
	byte value;
	bool done
}

inline add(c)
{
	if
	:: c.value < LIMIT
	   c.value++
	:: else
	   c.done = true
	fi
	c.done = c.done || c.value == LIMIT
}
