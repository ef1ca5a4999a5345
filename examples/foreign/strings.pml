/* strings that go on */
#define HELLO "hello, \
world\n"

init {
	printf(HELLO)
	printf("one \
line\n")
	printf("%d\n",
		__LINE__)
	printf("/* no comment */ ; { } // neither\n")
}
