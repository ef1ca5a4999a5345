/* The sieve of Eratosthenes: a process for each prime, which hands on the numbers that it does not divide; 0 ends them. */
proctype Prime(chan in; byte prime) {
    chan out = [0] of { byte };
    byte n;
    bool has_next;
    printf("%d\n", prime);
    do
    :: in?n ->
        if
        :: n == 0 -> break
        :: n != 0 && n % prime != 0 ->
            if
            :: has_next -> out!n
            :: !has_next -> has_next = true; run Prime(out, n)
            fi
        :: else
        fi
    od;
    if
    :: has_next -> out!0
    :: else
    fi
}

init {
    chan numbers = [0] of { byte };
    byte n = 3;
    run Prime(numbers, 2);
    do
    :: n <= 8 -> numbers!n; n++
    :: else -> break
    od;
    numbers!0
}
