#line 100 "marked.pml"
byte x

#line 200
init {
	x = 1
	assert(x == 1)
#line 300
	x = 2
}
