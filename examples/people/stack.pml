/* A bounded stack by macros, as in our C course.  cc -DDEBUG prints. */
#define DEPTH 3
#define DECLARE(name) byte name##_data[DEPTH]; byte name##_top = 0
#define PUSH(name, v) \
	assert(name##_top < DEPTH); \
	name##_data[name##_top] = v; \
	name##_top++
#define POP(name, v) \
	assert(name##_top > 0); \
	name##_top--; \
	v = name##_data[name##_top]
#ifdef DEBUG
#define TRACE(what) printf(#what " %d\n", what)
#else
#define TRACE(what) skip
#endif

DECLARE(s);
DECLARE(t);

init
{
	int x, y;

	PUSH(s, 'a');
	PUSH(s, 2);
	POP(s, x);
	PUSH(t, x);
	TRACE(x);
	POP(s, y);
	assert(x == 2 && y == 'a');
	POP(t, x);
	assert(s_top == 0 && t_top == 0)
}
