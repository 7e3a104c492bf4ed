# While a peer is calm its allowance counts as 6,400 at least: while the round trip is less than the least one that was measured and a
# quarter of it more, here 400 and 100.
BEGIN {
    says("pair 3", "ok")
    # Packets of 1,352 bytes, 1,380 in price, and some shorter ones.
    for (n = 1; n <= 3; n++) {
        submits(2, 1, n < 3 ? 1352 : 795)
        goes(n - 1, 0, reliable(2, n, n < 3 ? 1352 : 795))
    }
    for (n = 1; n <= 23; n++) {
        count = n == 3 ? 794 : n == 4 || n == 5 ? 1 : 1352
        submits(0, 1, count)
        goes(2 + n, 0, reliable(0, n, count))
    }
    submits(1, 1, 1)
    goes(26, 0, reliable(1, 1, 1))
    # The first round trip is 400, its variance 200, so the timeouts are 1,200 from now on. The second packet of channel 1 goes.
    says("tick A 400", "ok")
    is_acknowledged(26, 0, acknowledgement(1, 1, 0), 1)
    submits(1, 1, 1)
    goes(27, 400, reliable(1, 2, 1))
    # The 26 packets, 32,063 in price, are late while the peer answers: the allowance falls to 2,800, but counts as 6,400. Four go again,
    # with the packet of a byte 5,549 in price.
    says("tick A 100", "ok")
    goes(28, 500, reliable(2, 1, 1352))
    goes(29, 500, reliable(0, 1, 1352))
    goes(30, 500, reliable(2, 2, 1352))
    goes(31, 500, reliable(0, 2, 1352))
    # With another packet of a byte it is 5,578. There is room for the 794 bytes, 822, and not for the 795. An unreliable packet fills the
    # datagram before them.
    says("tick A 590", "ok")
    submits(1, 1, 1)
    submits(1, 0, 1300)
    goes(32, 1090, reliable(1, 3, 1) "0701000300010514" zeros(1300))
    goes(33, 1090, reliable(0, 3, 794))
    nothing_goes()
    # The packet that went at 400 is acknowledged after 1,199: the round trip is 400 + 799 / 8 = 499, which is calm. The allowance is
    # 2,800 + 29 / 4 + 2,048 * 29 / 2,800 = 2,828, and counts as 6,400: there is room for 1 byte, 29.
    says("tick A 509", "ok")
    is_acknowledged(27, 1, acknowledgement(1, 2, 400), 1)
    goes(34, 1599, reliable(0, 4, 1))
    nothing_goes()
    # The one that went at 1,090 is acknowledged after 509: the round trip is 499 + 10 / 8 = 500, which isn't calm. So there is no room
    # for a byte.
    says("deliver B 32", "handled 2")
    is_answered(2, acknowledgement(1, 3, 1090), 1)
    nothing_goes()
    # At 1,700 the four are late again, and the allowance is 2,800. Beside the 794 bytes and the one of channel 0, 851, one of them goes,
    # which makes 2,231.
    says("tick A 101", "ok")
    goes(35, 1700, reliable(2, 1, 1352))
    nothing_goes()
}
