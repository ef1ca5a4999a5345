/* A server, and clients that hand it the channel on which they await their answers. */
chan requests = [0] of { chan, byte };

active proctype Server() {
    chan answers;
    byte n;
end:
    do
    :: requests?answers,n -> answers!n * n
    od
}

active [2] proctype Client() {
    chan mine = [0] of { byte };
    byte square;
    requests!mine,_pid + 2;
    mine?square;
    printf("client %d: %d\n", _pid, square)
}
