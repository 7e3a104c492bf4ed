# An acknowledgement removes the due command that the room in transit is kept for, and a reliable one is next on its channel: the room is
# kept still. 65,536 bytes of payload are in transit, as many as may be.
BEGIN {
    says("pair 3", "ok")
    submits(2, 1, 1364)
    goes(0, 0, reliable(2, 1, 1364))
    says("tick A 100", "ok")
    fills(64172, 1, 100)
    # No room is kept for the second packet of channel 2, since the first one is in transit.
    submits(2, 1, 1364)
    nothing_goes()
    # The first one is due. A byte of channel 1 goes before it, so that a byte of room is wanting: it is kept for channel 2.
    says("tick A 400", "ok")
    submits(1, 1, 1)
    goes(49, 500, reliable(1, 1, 1))
    submits(1, 1, 1)
    nothing_goes()
    is_acknowledged(0, 0, acknowledgement(2, 1, 0), 1)
    nothing_goes()
    # The byte is acknowledged, too. The second packet of channel 2 goes, and the room is kept for the second byte of channel 1.
    is_acknowledged(49, 1, acknowledgement(1, 1, 500), 1)
    goes(50, 500, reliable(2, 2, 1364))
    nothing_goes()
    is_acknowledged(1, 2, acknowledgement(0, 1, 100), 1)
    goes(51, 500, reliable(1, 2, 1))
    nothing_goes()
}
