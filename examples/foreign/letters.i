# 0 "letters.pml"
# 0 "<built-in>"
# 0 "<command-line>"
# 1 "/usr/include/stdc-predef.h" 1 3 4
# 0 "<command-line>" 2
# 1 "letters.pml"







chan text = [1] of { byte }
byte letters, words

active proctype Writer()
{
 text!'a'
 text!' '
 text!'\''
 text!'z'
 text!'\n'
 text!'\\'
 printf("%d 'q'\n", '\t')
}

active proctype Reader()
{
 byte c = ' '
 bool in_word
 do
 :: text?c ->
  if
  :: (c >= 'a' && c <= 'z') ->
   letters++
   words = words + (in_word -> 0 : 1)
   in_word = true
  :: c == '\\' ->
   break
  :: else ->
   in_word = false
  fi
 od
 assert(letters == 2 && words == 2)
}
