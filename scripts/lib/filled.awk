# Writes a script of check_scripts' language that fills the host A with one kind of thing as far as that goes:
# `awk -v kind=KIND -v channels=COUNT -v waiting=BYTES`, the settings of A. `-v pieces=COUNT` is how many pieces a packet has that comes in
# pieces; each has 512 bytes, the shortest that a packet may be cut into. What a stranger B fills it with:
#
#     untaken          unsequenced packets, which the user doesn't take
#     held             reliable packets behind one that never comes
#     released         the same, and then those that were missing, so that all can be taken
#     waiting          unreliable packets that wait for one reliable one
#     lines            unreliable packets, each of which waits for a reliable one of its own
#     pieces           the first pieces of reliable packets
#     pieces-in-lines  the same of unreliable packets, each of which waits for a reliable one of its own
#     early            all pieces of reliable packets but the first
#     half-early       the first half of the pieces of reliable packets, and all behind them but one
#     spread           reliable packets on all channels whose numbers lie far apart, and an unreliable one that waits
#     given-up         as lines, on one channel after another, so that what waits on one gives way to what comes on the next
#     pings            pings, which are to be acknowledged
#
# And what A's own user fills it with: `reliable`, `unreliable` and `unsequenced` packets, `many-pieces`, a `body` of 200,000 bytes, a
# `burst` that is acknowledged, one that is no longer than the room that is `kept`, and one of which all but the first packet is (`front`);
# `gone` and `gone-unsequenced`: unreliable and unsequenced packets that all went.
# `granted`: A asks for 255 channels and gets one. `open`: nothing comes. The first line is a remark: how many commands of A's user, and how
# many bytes, were queued or unacknowledged at once since none was last, and then, of packets that come in pieces, how many they are, how many
# bytes each has, and how many pieces and how many bytes of each came. No figure of memory is here: what a thing takes stands in specs/Memory
# of enet_host.
function hex(number, digits) { return sprintf("%0" digits "x", number) }
function line(text, answer) { print text " = " answer }
function datagram(text, handled) { line("receive A B 80000000" text, handled ? "handled 1" : "handled 0 stop S10") }
function own(commands, bytes) { print "# own " commands " " bytes " 0 0 0 0" }

# Both ends are connected before all else.
function joined(count) { line("joined A B 1 " count " waiting " waiting, "ok") }
function connected() {
    line("open A 1 " channels " waiting " waiting, "ok")
    line("receive A B 8fff000082ff00010000ffff0000057000010000" hex(channels, 8) \
        "00000000000000000000138800000002000000020102030400000007", "handled 1")
    line("drain A", "ok")
    line("receive A B 000001ff000100010000", "handled 1")
    line("take A", "connect 0.0 data 7")
}

# The command of this number, on its channel, with its reliable number.
function command(number, channel, place, own_number) {
    channel = number % channels
    place = int(number / channels)
    if (kind == "given-up") { channel = int(number / 1500) % channels; place = number % 1500 }
    if (kind == "spread") place *= 4096
    own_number = hex(kind == "released" && number >= released ? 1 : place + 2, 4)
    channel = hex(channel, 2)
    if (kind == "untaken") return "49" channel "0000" hex(number + 1, 4) "000100"
    if (kind == "spread" && place > 28000) return "07" channel "00030001000100"
    if (kind == "held" || kind == "released" || kind == "spread") return "06" channel own_number "000100"
    if (kind == "waiting") return "07" channel "0002" own_number "000100"
    if (kind == "lines" || kind == "given-up") return "07" channel own_number "0001000100"
    return "85ff" own_number
}

# The piece of this place of the packet of this number.
function piece(number, place, channel, first) {
    channel = hex(number % channels, 2)
    first = int(number / channels) * (kind == "early" || kind == "half-early" ? pieces : 1) + 1
    if (kind == "pieces-in-lines") first++
    return (kind == "pieces-in-lines" ? "0c" channel hex(first, 4) "0001" : "08" channel hex(first + place, 4) hex(first, 4)) \
        hex(length_of_piece, 4) hex(pieces, 8) hex(place, 8) hex(length_of_piece * pieces, 8) hex(length_of_piece * place, 8) ",00x" length_of_piece
}

# Whether the piece of this place comes.
function comes(place) {
    if (kind == "early") return place > 0
    if (kind == "half-early") return place != int(pieces / 2)
    return place == 0
}

# So many commands come, of which the first `most` are taken in. Of unreliable packets one more would make all that wait give way.
function fill(count, most, number) {
    own(0, 0)
    connected()
    for (number = 0; number < count; number++) datagram(command(number), number < most)
}

# Pieces come of as many packets as may wait, and of reliable ones of the next in order of each channel. Of `pieces` 300 packets more are
# begun, of which none is taken in.
function fill_with_pieces(most, came, number, place) {
    most = int((waiting - 1) / (length_of_piece * pieces)) + 1
    if (kind != "pieces-in-lines" && most < channels) most = channels
    for (place = 0; place < pieces; place++) came += comes(place)
    print "# own 0 0 " most " " length_of_piece * pieces " " came " " length_of_piece * came
    connected()
    for (number = 0; number < most; number++)
        for (place = 0; place < pieces; place++) if (comes(place)) datagram(piece(number, place), 1)
    if (kind == "pieces") for (number = most; number < most + 300; number++) datagram(piece(number, 0), 0)
}

# So many packets of so many bytes are submitted. Each goes in so many commands, which count.
function submit(count, flags, bytes, commands, number) {
    own(count * commands, commands ? count * bytes : 0)
    joined(2)
    for (number = 0; number < count; number++) line("submit A 0.0 0 " flags " 00x" bytes, "ok")
}

# B acknowledges the packets from one number to another.
function acknowledge(first, last, number) {
    line("drain A", "ok")
    for (number = first; number <= last; number++) datagram("01000000" hex(number, 4) "0000", 1)
}

BEGIN {
    length_of_piece = 512
    released = 1020
    places = int(waiting / 128) > 1024 ? int(waiting / 128) : 1024
    if (kind == "untaken" || kind == "held") fill(places + 300, places)
    else if (kind == "waiting" || kind == "lines") fill(places, places)
    else if (kind == "pieces" || kind == "pieces-in-lines" || kind == "early" || kind == "half-early") fill_with_pieces()
    else if (kind == "released") fill(released + channels, released + channels)
    else if (kind == "spread") fill(channels * 8, channels * 8)
    else if (kind == "given-up") fill(60000, 60000)
    else if (kind == "pings") fill(9000, 8192)
    else if (kind == "reliable") submit(1030, 1, 1, 1)
    else if (kind == "unreliable") submit(1030, 0, 1, 1)
    else if (kind == "unsequenced") submit(1030, 2, 1, 1)
    else if (kind == "many-pieces") submit(120, 1, 100000, 74)
    else if (kind == "body") submit(1, 1, 200000, 147)
    else if (kind == "burst") { submit(1030, 1, 1, 0); acknowledge(1, 1030) }
    else if (kind == "kept") { submit(64, 1, 1, 0); acknowledge(1, 64) }
    else if (kind == "gone") { submit(1030, 0, 1, 0); line("drain A", "ok") }
    else if (kind == "gone-unsequenced") { submit(1030, 2, 1, 0); line("drain A", "ok") }
    else if (kind == "front") { submit(8192, 1, 1, 1); acknowledge(2, 8192) }
    else if (kind == "granted") {
        own(0, 0)
        line("open A 1 255", "ok")
        line("connect A B 255 0 01020304", "peer 0.0")
        line("drain A", "ok")
        datagram("83ff000100000000000005700001000000000001000000000000000000001388000000020000000201020304", 1)
        line("take A", "connect 0.0 data 0")
    } else {
        own(0, 0)
        line("open A " channels " 255", "ok")
    }
}
