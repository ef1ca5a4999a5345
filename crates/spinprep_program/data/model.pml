# 0 "model.pml"
# 1 "model.pml"
byte x
ltl p { [] (x < 3) }
# 5 "model.pml"
init {
    x = 1
    x = 2
done:
}
