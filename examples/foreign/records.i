# 0 "records.pml"
# 0 "<built-in>"
# 0 "<command-line>"
# 1 "/usr/include/stdc-predef.h" 1 3 4
# 0 "<command-line>" 2
# 1 "records.pml"






typedef Press {
 byte force = 3
 short done[2]
 bool is_open
}

typedef Line {
 Press press
 chan belt = [1] of { byte }
 byte left = 2
}

Line line

active proctype Feeder()
{
 do
 :: line.left > 0 ->
  line.belt!line.left
  line.left--
again:
 :: line.left == 0 ->
  break
never_here:
 od
}

active proctype Stamp()
{
 byte piece
 line.press.is_open = true
 do
 :: line.belt?piece ->
  if
  :: piece > 1 ->
   line.press.done[1] = line.press.force
first:
  :: else ->
   line.press.done[0] = line.press.force + 1
   break
last:
  fi
 od
 line.press.is_open = false
end:
}
