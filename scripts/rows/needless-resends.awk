# Where an acknowledgement shows that a resend was needless, the allowance grows by the price. It has fallen to 2,800 (`falls` in
# says.awk).
BEGIN {
    says("pair 3", "ok")
    falls()
    # The first send of the third packet is acknowledged, which is due to go again: the allowance grows by 1,366 and by nothing else, to
    # 4,166. The fourth goes again, which makes 4,126 in price, and there is room for 12 bytes and not for 13.
    says("tick A 100", "ok")
    is_acknowledged(2, 2, acknowledgement(0, 3, 0), 1)
    goes(28, 600, reliable(0, 4, 1338))
    submits(1, 1, 13)
    submits(2, 1, 12)
    goes(29, 600, reliable(2, 1, 12))
    nothing_goes()
    # The first packet is acknowledged by the time of its first send, and went again at 500. The allowance grows by 1,366 / 4 = 341, by
    # 2,048 * 1,366 / 4,166 = 671, and by 1,366, to 6,544. What is in transit is 2,800 then. The fifth and the sixth go again, and the
    # 13 bytes, which makes 5,573: so there is room for 971.
    is_acknowledged(0, 3, acknowledgement(0, 1, 0), 1)
    goes(30, 600, reliable(0, 5, 1338))
    goes(31, 600, reliable(1, 4, 13) reliable(0, 6, 1338))
    submits(1, 1, 944)
    submits(2, 1, 943)
    goes(32, 600, reliable(2, 2, 943))
    nothing_goes()
}
