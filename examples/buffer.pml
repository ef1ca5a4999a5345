/* A producer and a consumer with a buffer of two places between them. */
chan buffer = [2] of { byte };
byte sum;

active proctype Producer() {
    byte n;
    do
    :: n < 4 -> n++; buffer!n
    :: else -> break
    od
}

active proctype Consumer() {
    byte n, taken;
    do
    :: taken < 4 -> buffer?n; taken++; sum = sum + n
    :: else -> break
    od;
    assert(sum == 10)
}
