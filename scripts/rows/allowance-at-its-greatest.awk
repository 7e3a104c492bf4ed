# The allowance grows to 131,072 and no further: 200 packets of 1,364 bytes are acknowledged, each of which adds 1,392 / 4 = 348 and
# more. Then 30 are lost, while one of a byte on channel 1 is acknowledged in 1 ms. The round trip is 1 and its variance 1, so the
# timeouts are 5.
BEGIN {
    says("pair 3", "ok")
    for (n = 1; n <= 200; n++) {
        submits(0, 1, 1364)
        goes(n - 1, 0, reliable(0, n, 1364))
        is_acknowledged(n - 1, n - 1, acknowledgement(0, n, 0), 1)
    }
    submits(1, 1, 1)
    goes(200, 0, reliable(1, 1, 1))
    for (n = 201; n <= 230; n++) {
        submits(0, 1, 1364)
        goes(n, 0, reliable(0, n, 1364))
    }
    says("tick A 1", "ok")
    is_acknowledged(200, 200, acknowledgement(1, 1, 0), 1)
    says("tick A 3", "ok")
    nothing_goes()
    # Now it loses 2 * 30 * 1,392 = 83,520 and is 47,552. All 30 go again, four more and an empty one, 47,356 in price, and there is room
    # for 168 bytes, 196, and not for 169.
    says("tick A 1", "ok")
    for (n = 201; n <= 230; n++) goes(30 + n, 5, reliable(0, n, 1364))
    for (n = 231; n <= 234; n++) {
        submits(0, 1, 1364)
        goes(30 + n, 5, reliable(0, n, 1364))
    }
    submits(1, 1, 0)
    goes(265, 5, reliable(1, 2, 0))
    submits(1, 1, 169)
    nothing_goes()
    submits(2, 1, 168)
    goes(266, 5, reliable(2, 1, 168))
    nothing_goes()
}
