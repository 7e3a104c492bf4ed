# What becomes late in silence costs nothing of the allowance, and waits twice as long then. Of 49 packets of 1,364 bytes 48 go, whose
# 65,472 bytes fit into the window of 65,536. The allowance is as much, so it limits nothing; were it less by a byte, it would hold back
# the 48th, since the prices are 48 * 1,392 = 66,816.
function all_go(first, time,    n) {
    for (n = 1; n <= 48; n++) goes(first + n - 1, time, reliable(0, n, 1364))
    nothing_goes()
}

BEGIN {
    says("pair 1", "ok")
    for (n = 1; n <= 49; n++) submits(0, 1, 1364)
    all_go(0, 0)
    says("tick A 499", "ok")
    nothing_goes()
    says("tick A 1", "ok")
    all_go(48, 500)
    says("tick A 999", "ok")
    nothing_goes()
    says("tick A 1", "ok")
    all_go(96, 1500)
}
