# What is due to go again goes though the room in transit is kept for another channel; what would go first doesn't. 65,536 bytes of payload
# are in transit, as many as may be, 341 of them in each of four packets of channel 1, two of which went 100 ms before all others.
BEGIN {
    says("pair 4", "ok")
    for (n = 1; n <= 2; n++) {
        submits(1, 1, 341)
        goes(n - 1, 0, reliable(1, n, 341))
    }
    says("tick A 100", "ok")
    fills(64172, 2, 100)
    for (n = 3; n <= 4; n++) {
        submits(1, 1, 341)
        goes(47 + n, 100, reliable(1, n, 341))
    }
    # The room is kept for the packet of channel 2.
    submits(2, 1, 1364)
    nothing_goes()
    # Two of channel 1 are due: 682 bytes of room, too few for the long one. They go, and the one of channel 3, a byte, doesn't.
    says("tick A 400", "ok")
    submits(3, 1, 1)
    goes(52, 500, reliable(1, 1, 341) reliable(1, 2, 341))
    nothing_goes()
    # All that went at 100 is due, so the long one goes, and with it the one of channel 3.
    says("tick A 100", "ok")
    goes(53, 600, reliable(2, 1, 1364) reliable(3, 1, 1))
    goes(54, 600, reliable(0, 1, 1364))
}
