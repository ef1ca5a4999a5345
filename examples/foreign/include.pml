#include "shared.h"

Counter hits

active proctype Counts()
{
	do
	:: !hits.done
	   add(hits)
	   printf("%d\n", hits.value)
	:: hits.done
	   break
	od
}
