# A line of a script and its answer, for the rows that a NAME.awk writes: into the files `lab` and `out`.
function says(line, answer) {
    print line > lab
    print answer > out
}

# A reliable number on the wire.
function wire(number) {
    return sprintf("%04x", number % 65536)
}

# So many pings of A, one each 500 ms, each of which B acknowledges: number 1 of channel 0xFF counts as sent.
function pings(count, n, time) {
    for (n = 0; n < count; n++) {
        time = wire(500 * (n + 1))
        says("tick A 500", "ok")
        says("turn A", "A#" n " 8000" time "85ff" wire(n + 2))
        says("deliver B " n, "handled 1")
        says("turn B", "B#" n " 000001ff" wire(n + 2) wire(n + 2) time)
        says("deliver A " n, "handled 1")
    }
}

# So many bytes, all 0.
function zeros(count,    text) {
    for (text = "00"; length(text) < 2 * count; text = text text) {}
    return count == 0 ? "-" : substr(text, 1, 2 * count)
}

# A packet of so many bytes, all 0, is submitted at A.
function submits(channel, flags, count) {
    says("submit A 0.0 " channel " " flags " " zeros(count), "ok")
}

# The command of a reliable packet of so many bytes on the wire.
function reliable(channel, number, count) {
    return sprintf("86%02x%s%04x", channel, wire(number), count) (count == 0 ? "" : zeros(count))
}

# The acknowledgement of the reliable command of that number that was sent at that time.
function acknowledgement(channel, number, time) {
    return sprintf("01%02x%s%s%s", channel, wire(number), wire(number), wire(time))
}

# A puts out its datagram k at a time, with commands of which one asks for an acknowledgement; and nothing.
function goes(k, time, commands) {
    says("turn A", "A#" k " 8000" wire(time) commands)
}

function nothing_goes() {
    says("turn A", "none")
}

# Datagram k of A comes to B, whose acknowledgements, as many as are told, come back in its datagram n.
function is_acknowledged(k, n, acknowledgements, count) {
    says("deliver B " k, "handled 1")
    is_answered(n, acknowledgements, count)
}

function is_answered(n, acknowledgements, count) {
    says("turn B", "B#" n " 0000" acknowledgements)
    says("deliver A " n, "handled " count)
}

# Puts so many bytes of payload in transit on channel 0 at a time, in packets of 1,364 and a last one, from A's datagram k on.
function fills(bytes, k, time,    n, count) {
    for (n = 1; bytes > 0; n++) {
        count = bytes < 1364 ? bytes : 1364
        submits(0, 1, count)
        goes(k++, time, reliable(0, n, count))
        bytes -= count
    }
}

# Brings A's allowance to its floor, 2,800 bytes, at 500 ms. 24 packets of 1,338 bytes on channel 0, the price of each 1,366, are lost
# while two of a byte on channel 1 are acknowledged, in 1 ms and in 400. For each of these it grows by 29 / 4 = 7, as 2,048 * 29 is less
# than the allowance, to 65,550. It loses 2 * 24 * 1,366 = 65,568 once the timeouts of 500 are over. The round trip, 1 and then 1 + 399 /
# 8 = 50, is above the least one, 1, by more than 4, so A isn't calm. The variance is 1 and then 1 + 399 / 4 = 100, so the next timeouts
# are 450. Two of the 24 go again, in A's datagrams 26 and 27, with an empty packet of channel 1: 2,760 in price are in transit. The third
# is stopped only where the second went, so the room is kept for no channel yet.
function falls(    n) {
    for (n = 1; n <= 24; n++) {
        submits(0, 1, 1338)
        goes(n - 1, 0, reliable(0, n, 1338))
    }
    for (n = 1; n <= 2; n++) {
        submits(1, 1, 1)
        goes(23 + n, 0, reliable(1, n, 1))
    }
    says("tick A 1", "ok")
    is_acknowledged(24, 0, acknowledgement(1, 1, 0), 1)
    says("tick A 399", "ok")
    is_acknowledged(25, 1, acknowledgement(1, 2, 0), 1)
    says("tick A 99", "ok")
    nothing_goes()
    says("tick A 1", "ok")
    submits(1, 1, 0)
    goes(26, 500, reliable(0, 1, 1338))
    goes(27, 500, reliable(1, 3, 0) reliable(0, 2, 1338))
}
