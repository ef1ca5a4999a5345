// Lamport's bakery, concurrency lecture
#define NPROCS 3
#define BEFORE(i, j) (number[i] < number[j] || (number[i] == number[j] && i < j))

bool choosing[NPROCS]
byte number[NPROCS]
byte critical

active [NPROCS] proctype customer()
{
  byte j, max = 0

  choosing[_pid] = true
  for (j in number) {
    if
    :: number[j] > max -> max = number[j]
    :: else
    fi
  }
  number[_pid] = max + 1
  choosing[_pid] = false

  for (j in number) {
    if
    :: j != _pid ->
      !choosing[j]
      (number[j] == 0 || BEFORE(_pid, j))
    :: else
    fi
  }
  critical++
  assert(critical == 1)
  critical--
  number[_pid] = 0
}
