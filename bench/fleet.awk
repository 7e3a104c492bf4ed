# Writes a script of the lab: a server with eight clients, of which one after another is connected, sends and gets some packets and leaves,
# `size` times, as `seed` draws it. No datagram is lost; some packets come twice.

# A drawn number below a bound. The products stay below 2 ^ 53, so that each awk draws the same.
function draw(bound) {
    drawn = drawn * 16807 % 2147483647
    return int(drawn / 2147483647 * bound)
}

# A host puts out a datagram, which comes to another.
function pass(from, to) {
    print "turn", from
    print "deliver", to, from, sent[from]++
}

function body(len, text) {
    for (text = ""; len > 0; len--) text = text sprintf("%02x", draw(256))
    return text
}

function talk(client, here, there, from, to, peer, flags) {
    if (draw(2)) { from = client; to = "S"; peer = here } else { from = "S"; to = client; peer = there }
    flags = draw(3)
    print "submit", from, peer, draw(2), flags, body(1 + draw(40))
    pass(from, to)
    if (draw(8) == 0) print "deliver", to, from, sent[from] - 1
    print "take", to
    if (flags == 1) pass(to, from)
    print "tick", from, 1 + draw(20)
    print "tick", to, 1 + draw(20)
}

function visit(client, here, there, rounds) {
    print "connect", client, 2, draw(1000), sprintf("%08x", draw(2147483647))
    pass(client, "S")
    pass("S", client)
    print "take", client
    pass(client, "S")
    print "take S"
    for (rounds = 2 + draw(6); rounds > 0; rounds--) talk(client, here, there)
    print (draw(2) ? "ask" : "later"), client, here, draw(1000)
    pass(client, "S")
    pass("S", client)
    print "take", client
    print "take S"
}

BEGIN {
    drawn = seed % 2147483646 + 1
    for (warm = 0; warm < 10; warm++) draw(2)
    print "fleet 8 4 2"
    for (number = 0; number < size; number++) {
        client = "C" draw(8)
        visit(client, "0." (count[client]++), "0." number)
    }
}
