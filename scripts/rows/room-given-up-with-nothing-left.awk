# An acknowledgement removes the due command that the room in transit is kept for, and nothing is left on its channel: the room is kept no
# longer. 65,536 bytes of payload are in transit, as many as may be.
BEGIN {
    says("pair 3", "ok")
    submits(2, 1, 1364)
    goes(0, 0, reliable(2, 1, 1364))
    says("tick A 100", "ok")
    fills(64172, 1, 100)
    # The packet of channel 2 is due. A byte of channel 1 goes before it, so that a byte of room is wanting: it is kept for channel 2.
    says("tick A 400", "ok")
    submits(1, 1, 1)
    goes(49, 500, reliable(1, 1, 1))
    submits(1, 1, 1)
    nothing_goes()
    is_acknowledged(0, 0, acknowledgement(2, 1, 0), 1)
    goes(50, 500, reliable(1, 2, 1))
    nothing_goes()
}
