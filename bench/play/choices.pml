init { do :: skip :: skip od }
