# 65,600 packets of 4 bytes in groups of 8, each delivered, taken and acknowledged before the next: the numbers 65,535, 0, 1 follow
# one another. Packet n, from 0 on, has the bytes of n and the number n + 1.
BEGIN {
    says("pair 1", "ok")
    for (group = 0; group < 8200; group++) {
        sent = "80000000"
        acknowledged = "0000"
        for (n = 8 * group; n < 8 * group + 8; n++) {
            says("submit A 0.0 0 1 " sprintf("%08x", n), "ok")
            sent = sent "8600" wire(n + 1) "0004" sprintf("%08x", n)
            acknowledged = acknowledged "0100" wire(n + 1) wire(n + 1) "0000"
        }
        says("turn A", "A#" group " " sent)
        says("deliver B " group, "handled 8")
        for (n = 8 * group; n < 8 * group + 8; n++) says("take B", "receive 0.0 ch 0 flags 1 " sprintf("%08x", n))
        says("take B", "none")
        says("turn B", "B#" group " " acknowledged)
        says("deliver A " group, "handled 8")
    }
    says("turn A", "none")
}
