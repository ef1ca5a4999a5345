/* Embedded systems: a main loop that an interrupt cuts short */
#define IRQ_LINES 2
#define pending(n) (irq & (1 << (n)))
#define ack(n)     irq = irq & ~(1 << (n))

byte irq = 0;
short counter = 0;
bool handled = false;

proctype Device(byte line)
{
	irq = irq | (1 << line)
}

active proctype Cpu()
{
	run Device(1);
	{
		do
		:: counter < 1000 -> counter = counter + 1
		:: counter >= 1000 -> counter = 0
		od
	} unless {
		pending(1);
		ack(1);
		handled = true
	};
	assert(handled && irq == 0);
	printf("interrupted\n")
}
