/* wolf, goat, cabbage: spin finds the way over the river as a counterexample */
bool man, wolf, goat, cabbage;

#define goal   (man && wolf && goat && cabbage)
#define eaten  ((wolf == goat && man != goat) || (goat == cabbage && man != goat))

ltl no_way { ! (!eaten U goal) }

inline cross(who) { atomic { who == man -> who = !who; man = !man } }

active proctype boat()
{
  byte trips = 0;
  do
  :: trips < 9 && !goal ->
     if
     :: cross(wolf)
     :: cross(goat)
     :: cross(cabbage)
     :: man = !man
     fi;
     trips++;
     if
     :: eaten -> break
     :: else -> skip
     fi
  :: else -> break
  od
}
