# What becomes late while the peer answers costs twice its price. 20 packets of 1,364 bytes on channel 0, the price of each 1,392, are
# lost while one of a byte on channel 1 is acknowledged in 400 ms: the allowance, 65,536, grows by 29 / 4 = 7 and loses 2 * 27,840 at
# 500 ms, so it is 9,863 then.
BEGIN {
    says("pair 3", "ok")
    submits(1, 1, 1)
    goes(0, 0, reliable(1, 1, 1))
    for (n = 1; n <= 20; n++) {
        submits(0, 1, 1364)
        goes(n, 0, reliable(0, n, 1364))
    }
    says("tick A 400", "ok")
    is_acknowledged(0, 0, acknowledgement(1, 1, 0), 1)
    says("tick A 99", "ok")
    nothing_goes()
    says("tick A 1", "ok")
    # Seven go again, 9,744 in price, and an empty packet, 28. Then there is room for 91, so for 63 bytes and not for 64.
    submits(1, 1, 0)
    goes(21, 500, reliable(1, 2, 0) reliable(0, 1, 1364))
    for (n = 2; n <= 7; n++) goes(20 + n, 500, reliable(0, n, 1364))
    submits(1, 1, 64)
    submits(2, 1, 63)
    goes(28, 500, reliable(2, 1, 63))
    nothing_goes()
    # The round trip is 400 and its variance 200, so these timeouts are 1,200. They are over at 1,700 in silence, so the allowance stays
    # 9,863. Now the one of 64 bytes finds room, 92 in price, and six of channel 0: with the 28 and the 91 that is 8,563.
    says("tick A 1199", "ok")
    nothing_goes()
    says("tick A 1", "ok")
    goes(29, 1700, reliable(0, 1, 1364))
    goes(30, 1700, reliable(1, 2, 0) reliable(1, 3, 64) reliable(2, 1, 63))
    for (n = 2; n <= 6; n++) goes(29 + n, 1700, reliable(0, n, 1364))
    submits(1, 1, 1273)
    submits(2, 1, 1272)
    goes(36, 1700, reliable(2, 2, 1272))
    nothing_goes()
}
