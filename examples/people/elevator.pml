/* Elevator with FLOORS floors, hardware/software co-design lab 3 */
#define FLOORS 4
#define UP   1
#define DOWN 0

typedef Cabin {
  byte floor;
  bit  dir;
  bool open;
  bool call[FLOORS]
};

Cabin lift;
hidden byte scratch;
byte served;

inline move()
{
  if
  :: lift.dir == UP && lift.floor < FLOORS - 1 -> lift.floor++
  :: lift.dir == DOWN && lift.floor > 0 -> lift.floor--
  :: else -> lift.dir = 1 - lift.dir
  fi
}

active proctype Buttons()
{
  lift.call[2] = true;
  lift.call[0] = true
}

active proctype Control()
{
  do
  :: served < 2 ->
progress_served:
    if
    :: lift.call[lift.floor] ->
       lift.open = true;
       lift.call[lift.floor] = false;
       served++;
       lift.open = false
    :: else ->
       assert(!lift.open);
       move()
    fi
  :: else -> goto done
  od;
done:
  scratch = 0;
  assert(lift.floor < FLOORS)
}
