# What `enet_relay inspect` must write for the datagrams of a captured file of trials/captured, by the remarks that stand beside
# them: names and numbers are the remarks', the flags those that ENet 1.3 gives a command of that name, and lengths, payloads and what
# can't be read are cut out of the hex by the sizes that ENet 1.3 gives the commands. With -v full=1 payloads are told whole.
function number_of(hex,    i, n) {
    n = 0
    for (i = 1; i <= length(hex); i++) n = n * 16 + index("0123456789abcdef", tolower(substr(hex, i, 1))) - 1
    return n
}

function bytes_from(place, count) {
    return count == 0 ? "-" : substr(datagram, 2 * place + 1, 2 * count)
}

# Hex as a text in quotes; "" if it isn't one: letters, with a zero behind them or none.
function quoted(hex, shown,    i, byte, text, letters) {
    letters = hex
    sub(/00$/, "", letters)
    if (length(hex) % 2 || letters == "") return ""
    for (i = 1; i < length(letters); i += 2) {
        byte = number_of(substr(letters, i, 2))
        if ((byte < 32 || byte > 126) && byte != 9 && byte != 10 && byte != 13) return ""
    }
    for (i = 1; i < length(shown); i += 2) {
        byte = number_of(substr(shown, i, 2))
        if (byte == 0) text = text "\\0"
        else if (byte == 9) text = text "\\t"
        else if (byte == 10) text = text "\\n"
        else if (byte == 13) text = text "\\r"
        else text = text (byte == 34 || byte == 92 ? "\\" : "") sprintf("%c", byte)
    }
    return "\"" text "\""
}

# The bytes of a packet.
function body(hex,    shown, text) {
    if (hex == "-") return hex
    shown = full ? hex : substr(hex, 1, 64)
    text = quoted(hex, shown)
    return (text == "" ? shown : text) (length(shown) < length(hex) ? ".." : "")
}

function word_behind(name,    i) {
    for (i = 2; i < words; i++) if (word[i] == name) return word[i + 1]
    print "the remark has no word " name ": " $0
    exit 1
}

function numbers(name, first, second, third,    part, text) {
    split(word_behind(name), part, "/")
    text = " " first " " part[1] " " second " " part[2]
    return third == "" ? text : text " " third " " part[3]
}

function terms() {
    return " outgoing_peer " word_behind("slot") " incoming_session " number_of(word_behind("in-session")) " outgoing_session " \
        number_of(word_behind("out-session")) " mtu " word_behind("mtu") " window " word_behind("window") " channels " \
        word_behind("channels") numbers("bw", "incoming_bandwidth", "outgoing_bandwidth", "") \
        numbers("throttle", "throttle_interval", "acceleration", "deceleration") " connect_id " word_behind("id")
}

function payload(    count) {
    count = word_behind("len")
    at += count
    return " length " count " payload " body(bytes_from(at - count, count))
}

function fragment() {
    return " start " word_behind("start") numbers("piece", "fragment", "count", "") " offset " word_behind("offset") " total " \
        word_behind("total") payload()
}

function fields(name,    part) {
    if (name == "ACKNOWLEDGE") return " received_number " word_behind("acks") " received_time " word_behind("sent")
    if (name == "CONNECT") return terms() " info " word_behind("data")
    if (name == "VERIFY_CONNECT") return terms()
    if (name == "DISCONNECT") return " info " word_behind("data")
    if (name == "PING") return ""
    if (name == "SEND_RELIABLE") return payload()
    if (name == "SEND_UNRELIABLE") return " unreliable " word_behind("u") payload()
    if (name == "SEND_UNSEQUENCED") return " group " word_behind("group") payload()
    if (name == "BANDWIDTH_LIMIT") return " incoming_bandwidth " word_behind("in") " outgoing_bandwidth " word_behind("out")
    if (name == "THROTTLE_CONFIGURE") {
        split(word[words], part, "/")
        return " throttle_interval " part[1] " acceleration " part[2] " deceleration " part[3]
    }
    return fragment()
}

function flags(name) {
    if (name == "DISCONNECT") return word[words] == "unsequenced" ? " unsequenced" : " acknowledge"
    return flag[name]
}

function command(remark,    name, channel, behind) {
    words = split(remark, word, " ")
    name = word[1]
    if (!(name in size)) {
        print "the remark names no command: " remark
        exit 1
    }
    channel = word_behind("ch")
    at += size[name]
    behind = fields(name)
    print "  " name " channel " (channel == "FF" ? 255 : channel) " number " word_behind("n") flags(name) behind
}

# Behind the mark stand a place and the first bytes from there.
function stop(remark,    part, rest) {
    split(remark, part, " ")
    rest = bytes_from(part[4] + 0, length(datagram) / 2 - part[4])
    if (index(rest, part[5]) != 1) {
        print "the datagram hasn't these bytes there: " remark
        exit 1
    }
    print "  " (compressed ? "S2 Compressed" : "S6 BadCommand") " at byte " part[4] + 0 ": " rest
}

BEGIN {
    split("ACKNOWLEDGE 8 CONNECT 48 VERIFY_CONNECT 44 DISCONNECT 8 PING 4 SEND_RELIABLE 6 SEND_UNRELIABLE 8 SEND_FRAGMENT 24 " \
        "SEND_UNSEQUENCED 8 BANDWIDTH_LIMIT 12 THROTTLE_CONFIGURE 16 SEND_UNRELIABLE_FRAGMENT 24", pair, " ")
    for (i = 1; i < 24; i += 2) {
        size[pair[i]] = pair[i + 1]
        flag[pair[i]] = " acknowledge"
    }
    flag["ACKNOWLEDGE"] = flag["SEND_UNRELIABLE"] = flag["SEND_UNRELIABLE_FRAGMENT"] = ""
    flag["SEND_UNSEQUENCED"] = " unsequenced"
}

/^#/ { next }

{
    datagram = $2
    remark = $0
    sub(/^[^#]*# [^ ]* [^ ]* /, "", remark)
    print "datagram " told++ " length " length(datagram) / 2
    bad = index(remark, " ! ")
    if (bad) {
        unread = substr(remark, bad + 3)
        remark = substr(remark, 1, bad - 1)
    }
    count = split(remark, part, "; ")
    compressed = sub(/ COMPRESSED/, " compressed", part[1])
    at = part[1] ~ / sent / ? 4 : 2
    print "  " part[1]
    for (each = 2; each <= count; each++) command(part[each])
    if (bad) stop(unread)
    else if (at != length(datagram) / 2) {
        print "the remark leaves bytes out: " $0
        exit 1
    }
}
