# What is due to go again waits for room like what goes first, and holds back all else of its channel. Then room is kept for that channel.
# The allowance has fallen to 2,800 (`falls` in says.awk): 2,760 are in transit, and the third packet of channel 0 is due.
BEGIN {
    says("pair 3", "ok")
    falls()
    # An empty packet, 28 in price, would find room, and an unreliable one needs none.
    submits(0, 1, 0)
    submits(0, 0, 1)
    nothing_goes()
    # An unreliable packet of another channel goes, and no reliable one, though it would find room.
    submits(1, 0, 1)
    says("turn A", "A#28 00000701000300010001" "00")
    submits(2, 1, 0)
    nothing_goes()
    # The first is acknowledged, which makes the allowance 4,140 (2,800 + 341 + 999). The third goes, with which 2,760 are in transit, and
    # then the empty one: the fourth finds no room behind it.
    says("tick A 100", "ok")
    is_acknowledged(26, 2, acknowledgement(0, 1, 500), 1)
    goes(29, 600, reliable(0, 3, 1338))
    goes(30, 600, reliable(2, 1, 0))
    nothing_goes()
    # All from the fourth on are acknowledged by their first sends. So nothing is due on the channel, and what waited behind them goes.
    for (n = 4; n <= 24; n++) {
        says("deliver B " n - 1, "handled 1")
        answers = answers acknowledgement(0, n, 0)
    }
    is_answered(3, answers, 21)
    goes(31, 600, reliable(0, 25, 0) "0700001900010001" "00")
    nothing_goes()
}
