# Writes a script of the lab: one host submits 8,000 reliable packets of a byte, in bursts of `size` packets. Each burst is put out, taken
# and acknowledged whole before the next.
BEGIN {
    print "pair 2"
    for (sent = 0; sent < 8000; sent += size) {
        for (number = 0; number < size; number++) print "submit A 0.0 0 1 68"
        print "calm 2 10"
    }
}
