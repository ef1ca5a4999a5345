chan q = [2] of { byte, int };
int sent, got;
active proctype Producer() { do :: atomic { empty(q) -> q!1,sent; sent++; q!2,sent; sent++ } od }
active proctype Consumer() { do :: atomic { full(q) -> q?_,got; q?_,got } od }
