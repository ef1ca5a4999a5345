/*
 * Counts the letters and the words of a text that another process sends, byte
 * by byte, as characters in quotes.
 */
#define END	'\\'
#define isLetter(c)	(c >= 'a' && c <= 'z')

chan text = [1] of { byte }
byte letters, words

active proctype Writer()
{
	text!'a'
	text!' '
	text!'\''
	text!'z'
	text!'\n'
	text!END
	printf("%d 'q'\n", '\t')
}

active proctype Reader()
{
	byte c = ' '
	bool in_word
	do
	:: text?c ->
		if
		:: isLetter(c) ->
			letters++
			words = words + (in_word -> 0 : 1)
			in_word = true
		:: c == END ->
			break
		:: else ->	/* ' ' or '\n' */
			in_word = false
		fi
	od
	assert(letters == 2 && words == 2)
}
