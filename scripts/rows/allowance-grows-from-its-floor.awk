# The allowance falls to 2,800 and grows with what is acknowledged (`falls` in says.awk). Each packet that is too long for the room is of a
# channel of which something is in transit, so that no room is kept for it; those that are due are asked last.
BEGIN {
    says("pair 4", "ok")
    falls()
    # What is in transit is 2,760 in price, so there is room for 40: for 12 bytes and not for 13.
    submits(1, 1, 13)
    submits(2, 1, 12)
    goes(28, 500, reliable(2, 1, 12))
    nothing_goes()
    # The first is acknowledged by the time of its last send: 1,366 / 4 = 341 and 2,048 * 1,366 / 2,800 = 999 make it 4,140. The third
    # packet goes again then, 1,366, and the 13 bytes, 41. With 1,366, 28 and 40 before that is 2,841, so there is room for 1,299.
    says("tick A 100", "ok")
    is_acknowledged(26, 2, acknowledgement(0, 1, 500), 1)
    goes(29, 600, reliable(0, 3, 1338) reliable(1, 4, 13))
    submits(2, 1, 1272)
    submits(3, 1, 1271)
    goes(30, 600, reliable(3, 1, 1271))
    nothing_goes()
}
