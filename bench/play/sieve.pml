proctype Prime(chan in; int prime) {
    chan out = [0] of { int };
    int n;
    bool has_next;
    do
    :: in?n ->
        if
        :: n % prime == 0
        :: n % prime != 0 && has_next -> out!n
        :: n % prime != 0 && !has_next -> has_next = true; run Prime(out, n)
        fi
    od
}
init {
    chan numbers = [0] of { int };
    int n = 3;
    run Prime(numbers, 2);
    do :: n < 1000 -> numbers!n; n++ :: else -> break od
}
