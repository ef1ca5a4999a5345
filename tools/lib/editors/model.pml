mtype = { ping, pong };
typedef Box { byte low; int high[3] };
chan line = [2] of { mtype, byte };
byte count;

inline tell(value) {
    line ! ping(value)
}

proctype Sender(byte most) {
    Box box;
    do
    :: count < most ->
        box.high[1] = count;
        tell(count);
        count++
    :: else -> break
    od
}

init {
    run Sender(2)
}
