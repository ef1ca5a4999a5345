/* The alternating bit protocol: a message is sent until its bit comes back, over a line that may lose messages. */
mtype = { message, answer };
chan line = [1] of { mtype, bit, byte };
chan back = [1] of { mtype, bit };

active proctype Sender() {
    byte value = 1;
    bit mine, theirs;
    do
    :: value <= 2 ->
        line!message(mine, value);
        if
        :: back?answer(theirs) ->
            if
            :: theirs == mine -> mine = 1 - mine; value++
            :: else
            fi
        :: timeout
        fi
    :: else -> break
    od
}

active proctype Receiver() {
    byte value;
    bit expected, theirs;
end:
    do
    :: line?message(theirs, value) ->
        if
        :: theirs == expected -> printf("received %d\n", value); expected = 1 - expected
        :: else
        fi;
        back!answer(theirs)
    :: line?message(_, _) -> printf("lost\n")
    od
}
