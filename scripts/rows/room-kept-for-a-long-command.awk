# Beside a flow of small packets of another channel the room in transit is kept for a long one, and the long one goes. 65,536 bytes of
# payload are in transit, as many as may be, 341 of them in each of four packets of channel 1.
BEGIN {
    says("pair 4", "ok")
    fills(64172, 0, 0)
    for (n = 1; n <= 4; n++) {
        submits(1, 1, 341)
        goes(47 + n, 0, reliable(1, n, 341))
    }
    # The room is kept for the long packet of channel 2, and no longer for the next small one. Packets that aren't reliable go.
    submits(2, 1, 1364)
    submits(1, 1, 341)
    nothing_goes()
    submits(3, 0, 1)
    submits(3, 2, 1)
    says("turn A", "A#52 0000490300000001000100070300000001000100")
    for (n = 1; n <= 3; n++) {
        is_acknowledged(47 + n, n - 1, acknowledgement(1, n, 0), 1)
        nothing_goes()
    }
    is_acknowledged(51, 3, acknowledgement(1, 4, 0), 1)
    goes(53, 0, reliable(2, 1, 1364))
    # Now it is kept for the small one, and not for that of channel 3, which comes before it in turn.
    nothing_goes()
    submits(3, 1, 1)
    is_acknowledged(0, 4, acknowledgement(0, 1, 0), 1)
    goes(54, 0, reliable(1, 5, 341))
    goes(55, 0, reliable(3, 1, 1))
    nothing_goes()
}
