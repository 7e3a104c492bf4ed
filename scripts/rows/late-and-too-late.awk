# 40,000 packets, each acknowledged before the next. Datagram n of A carries number n + 1, and datagram n of B acknowledges it.
# Number 7,232 is 32,768 behind the last then: it may still come, though it does nothing. Number 7,231 may not.
BEGIN {
    says("pair 1", "ok")
    for (n = 0; n < 40000; n++) {
        says("submit A 0.0 0 1 61", "ok")
        says("turn A", "A#" n " 800000008600" wire(n + 1) "000161")
        says("deliver B " n, "handled 1")
        says("take B", "receive 0.0 ch 0 flags 1 61")
        says("turn B", "B#" n " 00000100" wire(n + 1) wire(n + 1) "0000")
        says("deliver A " n, "handled 1")
    }
    says("deliver B 7231", "handled 1")
    says("take B", "none")
    says("turn B", "none")
    says("deliver B 7230", "E11 Late")
    says("deliver A 7231", "handled 1")
    says("deliver A 7230", "E11 Late")
    says("deliver B 40000", "E13 NoSuchDatagram")
}
