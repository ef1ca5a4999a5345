int i;
init { do :: d_step { i = 0; do :: i < 4999 -> i++ :: else -> break od } od }
