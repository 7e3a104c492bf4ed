-- A dissector of ENet 1.3 for Wireshark 4.0 and later.
--
-- Name it to tshark (`tshark -X lua_script:tools/enet.lua ..`), or put it into Wireshark's folder "Personal Lua Plugins" (Help, About
-- Wireshark, Folders). Datagrams of ENet have no mark that tells them from others, so say which ports they go to or come from: by the
-- preference `enet.ports`, or by Decode As.
--
-- It shows the header, each command with its fields, and what belongs together: which datagram an acknowledgement acknowledges and how long
-- that took, by which a command was acknowledged, and what was sent again. What follows a datagram in the capture is known once the whole
-- capture was read: to Wireshark always, to tshark with the option -2. What can't be read is marked by the number and name that
-- `enet_relay inspect` gives it.
--
-- A *send* is a command that asks for an acknowledgement, in one datagram. An ACKNOWLEDGE belongs to the last send before it that went the
-- other way with its channel, number and sent time; a VERIFY_CONNECT to the last CONNECT with its connect id. A command is *sent again*
-- (`enet.resent`) if one of the last 4,096 sends that go its way has its channel and number. If one of these has its sent time, too, it is
-- no new send but the same datagram seen twice (`enet.repeated`). A *connection* is what goes between two addresses from a CONNECT on, up
-- to one with another connect id.

local protocol = Proto("enet", "ENet 1.3")

-- How many bytes all commands begin with: the command byte, the channel, and the reliable number.
local HEAD = 4
-- Among so many sends that go one way, one is sought that went before.
local REACH = 4096
-- So many commands are named in the list of packets.
local NAMED = 16

-- Fields ----------------------------------------------------------------------------------------------------------------------------------

local fields = {
    peer = ProtoField.uint16("enet.peer", "Peer", base.DEC, nil, 0x0fff, "The receiver's peer id; 4095: none yet"),
    session = ProtoField.uint16("enet.session", "Session", base.DEC, nil, 0x3000),
    compressed = ProtoField.bool("enet.compressed", "Compressed", 16, nil, 0x4000),
    has_sent_time = ProtoField.bool("enet.has_sent_time", "With sent time", 16, nil, 0x8000),
    sent_time = ProtoField.uint16("enet.sent_time", "Sent time", base.DEC, nil, nil, "The sender's clock in milliseconds, modulo 65,536"),

    acknowledge = ProtoField.bool("enet.acknowledge", "Asks for an acknowledgement", 8, nil, 0x80),
    unsequenced = ProtoField.bool("enet.unsequenced", "Unsequenced", 8, nil, 0x40),
    channel = ProtoField.uint8("enet.channel", "Channel", base.DEC, nil, nil, "255: the connection's own"),
    number = ProtoField.uint16("enet.number", "Reliable number"),
    payload = ProtoField.bytes("enet.payload", "Payload"),

    connection = ProtoField.uint32("enet.connection", "Connection", base.DEC, nil, nil, "Counted from 0 in this capture"),
    acks = ProtoField.framenum("enet.acks", "Acknowledges what was sent in", base.NONE, frametype.ACK),
    ack_delay = ProtoField.relative_time("enet.ack.delay", "Time from there to here"),
    acked_by = ProtoField.framenum("enet.acked_by", "Acknowledged in", base.NONE, frametype.ACK),
    resend_of = ProtoField.framenum("enet.resend_of", "Was sent before in", base.NONE, frametype.RETRANS_PREV),
    resent_in = ProtoField.framenum("enet.resent_in", "Is sent again in", base.NONE, frametype.RETRANS_NEXT),
    repeat_of = ProtoField.framenum("enet.repeat_of", "The same was seen in", base.NONE, frametype.DUP_ACK),

    stop = ProtoField.uint8("enet.stop", "Stop", base.DEC, { [1] = "Short", [2] = "Compressed", [6] = "BadCommand" }),
    stop_place = ProtoField.uint32("enet.stop.place", "At byte"),
    unread = ProtoField.bytes("enet.unread", "Not read"),
}

local resent = ProtoExpert.new("enet.resent", "Sent again", expert.group.SEQUENCE, expert.severity.NOTE)
local repeated = ProtoExpert.new("enet.repeated", "Seen before, with the same sent time", expert.group.SEQUENCE, expert.severity.NOTE)
local cut_short = ProtoExpert.new("enet.cut_short", "The capture has less than the datagram", expert.group.UNDECODED, expert.severity.WARN)

-- Why a datagram can't be read to its end, as `inspect` says it, and how it is marked.
local function stop(label, name, group)
    return { label = label, mark = ProtoExpert.new("enet.stop." .. name, label, group, expert.severity.ERROR) }
end

local stops = {
    [1] = stop("S1 Short", "short", expert.group.MALFORMED),
    [2] = stop("S2 Compressed", "compressed", expert.group.UNDECODED),
    [6] = stop("S6 BadCommand", "bad_command", expert.group.MALFORMED),
}

-- Commands --------------------------------------------------------------------------------------------------------------------------------

local KINDS_OF_NUMBER = { ProtoField.uint8, ProtoField.uint16, nil, ProtoField.uint32 }

-- A number that some commands have behind their first four bytes: its size in bytes, its name in filters, and its title.
local function part(size, name, title, shown_in)
    local field = KINDS_OF_NUMBER[size]("enet." .. name, title, shown_in or base.DEC)
    fields[name] = field
    return { size = size, field = field }
end

local ack_number = part(2, "ack.number", "Acknowledged number")
local ack_time = part(2, "ack.time", "Acknowledged sent time")
local outgoing_peer = part(2, "outgoing_peer", "Sender's peer id")
local incoming_session = part(1, "incoming_session", "Incoming session")
local outgoing_session = part(1, "outgoing_session", "Outgoing session")
local mtu = part(4, "mtu", "MTU")
local window = part(4, "window", "Window size")
local channels = part(4, "channels", "Channels")
local incoming_bandwidth = part(4, "incoming_bandwidth", "Incoming bandwidth")
local outgoing_bandwidth = part(4, "outgoing_bandwidth", "Outgoing bandwidth")
local throttle_interval = part(4, "throttle_interval", "Throttle's interval")
local acceleration = part(4, "acceleration", "Throttle's acceleration")
local deceleration = part(4, "deceleration", "Throttle's deceleration")
local connect_id = part(4, "connect_id", "Connect id", base.HEX)
local info = part(4, "info", "Info")
local unreliable = part(2, "unreliable", "Unreliable number")
local group = part(2, "group", "Unsequenced group")
local start = part(2, "fragment.start", "Start number")
local count = part(4, "fragment.count", "Fragment count")
local fragment = part(4, "fragment.number", "Fragment number")
local total = part(4, "fragment.total", "Total length")
local offset = part(4, "fragment.offset", "Fragment offset")
local length = part(2, "length", "Payload's length")

-- The commands by their numbers, each with its name and what follows its first four bytes. With `length` a payload stands behind it all.
local commands = {
    { name = "ACKNOWLEDGE", ack_number, ack_time },
    {
        name = "CONNECT", outgoing_peer, incoming_session, outgoing_session, mtu, window, channels, incoming_bandwidth, outgoing_bandwidth,
        throttle_interval, acceleration, deceleration, connect_id, info,
    },
    {
        name = "VERIFY_CONNECT", outgoing_peer, incoming_session, outgoing_session, mtu, window, channels, incoming_bandwidth,
        outgoing_bandwidth, throttle_interval, acceleration, deceleration, connect_id,
    },
    { name = "DISCONNECT", info },
    { name = "PING" },
    { name = "SEND_RELIABLE", length },
    { name = "SEND_UNRELIABLE", unreliable, length },
    { name = "SEND_FRAGMENT", start, length, count, fragment, total, offset },
    { name = "SEND_UNSEQUENCED", group, length },
    { name = "BANDWIDTH_LIMIT", incoming_bandwidth, outgoing_bandwidth },
    { name = "THROTTLE_CONFIGURE", throttle_interval, acceleration, deceleration },
    { name = "SEND_UNRELIABLE_FRAGMENT", start, length, count, fragment, total, offset },
}
local ACKNOWLEDGE, CONNECT, VERIFY_CONNECT = commands[1], commands[2], commands[3]

-- Of each command: its size without a payload, and where in it each part stands.
local names = {}
for number, command in ipairs(commands) do
    names[number] = command.name
    command.size, command.places = HEAD, {}
    for _, each in ipairs(command) do
        command.places[each] = command.size
        command.size = command.size + each.size
    end
end
fields.command = ProtoField.uint8("enet.command", "Command", base.DEC, names, 0x0f)

protocol.fields = fields
protocol.experts = { resent, repeated, cut_short, stops[1].mark, stops[2].mark, stops[6].mark }

-- Reading ---------------------------------------------------------------------------------------------------------------------------------

-- The number that a command, which begins at a place, has as this part; nil if the command has no such part.
local function value_of(tvb, place, command, each)
    local at = command.places[each]
    return at and tvb(place + at, each.size):uint()
end

-- The command at a place, and its size with the payload. If no whole command stands there, nil and whether more bytes would help.
local function command_at(tvb, place)
    local left = tvb:len() - place
    local command = commands[tvb(place, 1):bitfield(4, 4)]
    if not command then
        return nil, false
    end
    if left < command.size then
        return nil, true
    end
    local size = command.size + (value_of(tvb, place, command, length) or 0)
    if left < size then
        return nil, true
    end
    return command, size
end

-- What is read of a command that begins at a place and has this size.
local function read_command(tvb, place, command, size)
    return {
        command = command,
        place = place,
        size = size,
        asks = tvb(place, 1):bitfield(0, 1) == 1,
        channel = tvb(place + 1, 1):uint(),
        number = tvb(place + 2, 2):uint(),
    }
end

-- Ends the reading of a datagram at a place, by the number of a stop. If the capture has only the beginning of the datagram, it isn't known
-- whether more would have been read.
local function stop_at(tvb, datagram, number, place, more_would_help)
    datagram.stop_place = place
    if more_would_help and tvb:len() < tvb:reported_len() then
        datagram.is_cut_short = true
    else
        datagram.stop = number
    end
    return datagram
end

-- Reads the commands of a datagram, which begin at a place.
local function read_commands(tvb, datagram, place)
    while place < tvb:len() do
        local command, size = command_at(tvb, place)
        if not command then
            return stop_at(tvb, datagram, 6, place, size)
        end
        table.insert(datagram, read_command(tvb, place, command, size))
        place = place + size
    end
    if place < tvb:reported_len() then
        return stop_at(tvb, datagram, 6, place, true)
    end
    return datagram
end

-- What is read of a datagram: the size of its header (0 if that isn't whole), its sent time if it has one, its commands in order, and
-- where reading stopped and why, if it did.
local function read_datagram(tvb)
    local datagram = { header = 0 }
    if tvb:len() < 2 then
        return stop_at(tvb, datagram, 1, 0, true)
    end
    local is_compressed = tvb(0, 2):bitfield(1, 1) == 1
    local has_sent_time = tvb(0, 2):bitfield(0, 1) == 1
    local header = has_sent_time and 4 or 2
    if tvb:len() < header then
        return stop_at(tvb, datagram, is_compressed and 2 or 1, 0, true)
    end
    datagram.header = header
    datagram.sent_time = has_sent_time and tvb(2, 2):uint() or nil
    if is_compressed then
        return stop_at(tvb, datagram, 2, header, false)
    end
    return read_commands(tvb, datagram, header)
end

-- What belongs together -------------------------------------------------------------------------------------------------------------------

-- The last connection between two addresses, by these; how many connections there are; and what is known of datagrams, by frame and by
-- their place in it.
local connections, connection_count, known

function protocol.init()
    connections, connection_count, known = {}, 0, {}
end

-- One way of a connection: how many sends went it, the last one by channel and number, the last one by sent time, too, and the last CONNECT
-- by its connect id.
local function new_way()
    return { sends = 0, by_number = {}, by_time = {}, connects = {} }
end

-- The connection that a datagram from one address to another belongs to, if it has a CONNECT with this id or none; and whether it goes the
-- way of the connection's first datagram.
local function connection_of(from, to, id)
    local between = from < to and from .. " " .. to or to .. " " .. from
    local connection = connections[between]
    if not connection or id and connection.id ~= id then
        connection = { index = connection_count, first = from, id = id, there = new_way(), back = new_way() }
        connections[between] = connection
        connection_count = connection_count + 1
    end
    return connection, connection.first == from
end

local function key_of(channel, number, time)
    return (channel * 65536 + number) * 65536 + (time or 0)
end

-- Whether something that was the send number `before` of its way is among the last ones at the send number `now`.
local function is_near(before, now)
    return before and now - before.at <= REACH
end

-- Takes down a send; what is known of it.
local function note_send(way, seen, read)
    way.sends = way.sends + 1
    local number_key, time_key = key_of(read.channel, read.number), key_of(read.channel, read.number, seen.sent_time)
    local number, send = way.by_number[number_key], seen.sent_time and way.by_time[time_key]
    local note = {}
    if is_near(send, way.sends) then
        note.repeat_of = send.frame
    else
        send = {}
        if is_near(number, way.sends) then
            note.resend_of = number.send.frame
            number.send.resent_in = seen.frame
        end
        number = { send = send }
    end
    number.at, send.at, send.frame, send.time = way.sends, way.sends, seen.frame, seen.time
    way.by_number[number_key] = number
    if seen.sent_time then
        way.by_time[time_key] = send
    end
    note.send = send
    return note
end

-- Takes down that a command acknowledges a send that went the other way, if the capture has that; what is known of the command.
local function note_answer(note, send, seen)
    if send then
        note.acks = send.frame
        send.acked_by = send.acked_by or seen.frame
    end
    return note
end

-- Takes down a command of a datagram that went one way; what is known of it.
local function note_command(tvb, way, back, seen, read)
    local command, place = read.command, read.place
    local note = read.asks and note_send(way, seen, read) or {}
    if command == CONNECT then
        way.connects[value_of(tvb, place, command, connect_id)] = note.send
    elseif command == VERIFY_CONNECT then
        note_answer(note, back.connects[value_of(tvb, place, command, connect_id)], seen)
    elseif command == ACKNOWLEDGE then
        local number, time = value_of(tvb, place, command, ack_number), value_of(tvb, place, command, ack_time)
        local send = back.by_time[key_of(read.channel, number, time)]
        note_answer(note, send, seen)
        note.delay = send and seen.time - send.time
    end
    return note
end

-- The connect id of a datagram's first CONNECT, if it has one.
local function offered_id(tvb, datagram)
    for _, read in ipairs(datagram) do
        if read.command == CONNECT then
            return value_of(tvb, read.place, CONNECT, connect_id)
        end
    end
    return nil
end

-- Takes down a datagram that is seen for the first time; what is known of it and of its commands.
local function note_datagram(tvb, pinfo, datagram)
    local from = tostring(pinfo.src) .. ":" .. pinfo.src_port
    local to = tostring(pinfo.dst) .. ":" .. pinfo.dst_port
    local connection, is_there = connection_of(from, to, offered_id(tvb, datagram))
    local way, back = connection.there, connection.back
    if not is_there then
        way, back = back, way
    end
    local seen = { frame = pinfo.number, time = pinfo.rel_ts, sent_time = datagram.sent_time }
    local notes = { connection = connection.index }
    for i, read in ipairs(datagram) do
        notes[i] = note_command(tvb, way, back, seen, read)
    end
    return notes
end

-- What is known of a datagram and of its commands. Nothing of one that an error message of ICMP quotes: it was not sent there.
local function notes_of(tvb, pinfo, datagram)
    if pinfo.in_error_pkt then
        return {}
    end
    local frame = known[pinfo.number] or {}
    known[pinfo.number] = frame
    local place = tvb:offset()
    if not pinfo.visited then
        frame[place] = note_datagram(tvb, pinfo, datagram)
    end
    return frame[place] or {}
end

-- Showing ---------------------------------------------------------------------------------------------------------------------------------

-- Adds what isn't read but known, if it is.
local function add_known(tree, field, value)
    if value then
        tree:add(field, value):set_generated()
    end
end

local function seconds(time)
    local whole = math.floor(time)
    return NSTime.new(whole, math.floor((time - whole) * 1e9 + 0.5))
end

local function show_header(tree, tvb, datagram, notes)
    if datagram.header > 0 then
        local branch = tree:add(tvb(0, datagram.header), "Header")
        branch:add(fields.has_sent_time, tvb(0, 2))
        branch:add(fields.compressed, tvb(0, 2))
        branch:add(fields.session, tvb(0, 2))
        branch:add(fields.peer, tvb(0, 2))
        if datagram.sent_time then
            branch:add(fields.sent_time, tvb(2, 2))
        end
    end
    add_known(tree, fields.connection, notes.connection)
end

-- Shows what a command has to do with others.
local function show_note(tree, note)
    local send = note.send or {}
    add_known(tree, fields.acks, note.acks)
    add_known(tree, fields.ack_delay, note.delay and seconds(note.delay))
    add_known(tree, fields.acked_by, send.acked_by)
    add_known(tree, fields.resend_of, note.resend_of)
    add_known(tree, fields.resent_in, send.resent_in)
    add_known(tree, fields.repeat_of, note.repeat_of)
    if note.resend_of then
        tree:add_proto_expert_info(resent)
    end
    if note.repeat_of then
        tree:add_proto_expert_info(repeated)
    end
end

local function show_command(tree, tvb, read, note)
    local command, place = read.command, read.place
    local title = command.name .. ", channel " .. read.channel .. ", number " .. read.number
    local branch = tree:add(tvb(place, read.size), title)
    branch:add(fields.acknowledge, tvb(place, 1))
    branch:add(fields.unsequenced, tvb(place, 1))
    branch:add(fields.command, tvb(place, 1))
    branch:add(fields.channel, tvb(place + 1, 1))
    branch:add(fields.number, tvb(place + 2, 2))
    for _, each in ipairs(command) do
        branch:add(each.field, tvb(place + command.places[each], each.size))
    end
    if read.size > command.size then
        branch:add(fields.payload, tvb(place + command.size, read.size - command.size))
    end
    show_note(branch, note)
end

-- The range from a place on, if a byte is there.
local function rest_from(tvb, place)
    return place < tvb:len() and tvb(place) or nil
end

local function show_stop(tree, tvb, datagram)
    local place, rest = datagram.stop_place, rest_from(tvb, datagram.stop_place)
    if rest then
        tree:add(fields.unread, rest)
    end
    if datagram.is_cut_short then
        tree:add_proto_expert_info(cut_short, "The capture has " .. tvb:len() .. " of the datagram's " .. tvb:reported_len() .. " bytes")
        return
    end
    local stop = stops[datagram.stop]
    local text = stop.label .. " at byte " .. place
    if datagram.stop == 6 and place == datagram.header then
        text = text .. ": no command of ENet 1.3, or a checksum stands before the first"
    end
    tree:add(fields.stop, datagram.stop):set_generated()
    tree:add(fields.stop_place, place):set_generated()
    tree:add_proto_expert_info(stop.mark, text)
end

-- A command in few words: its name, channel and number, and whether it was sent again.
local function words_of(read, note)
    local again = note.resend_of and " (again)" or note.repeat_of and " (twice)" or ""
    if read.channel == 0xff then
        return read.command.name .. again
    end
    return read.command.name .. " " .. read.channel .. "/" .. read.number .. again
end

-- A datagram in few words, for the list of packets.
local function summary(datagram, notes)
    local words = {}
    for i = 1, math.min(#datagram, NAMED) do
        words[i] = words_of(datagram[i], notes[i] or {})
    end
    if #datagram > NAMED then
        table.insert(words, (#datagram - NAMED) .. " more commands")
    end
    if datagram.stop then
        table.insert(words, stops[datagram.stop].label)
    end
    return table.concat(words, ", ")
end

function protocol.dissector(tvb, pinfo, root)
    local datagram = read_datagram(tvb)
    local notes = notes_of(tvb, pinfo, datagram)
    pinfo.cols.protocol:set("ENet")
    pinfo.cols.info:set(summary(datagram, notes))
    local tree = root:add(protocol, tvb())
    show_header(tree, tvb, datagram, notes)
    for i, each in ipairs(datagram) do
        show_command(tree, tvb, each, notes[i] or {})
    end
    if datagram.stop_place then
        show_stop(tree, tvb, datagram)
    end
    return tvb:len()
end

-- Which ports ---------------------------------------------------------------------------------------------------------------------------

local udp_ports = DissectorTable.get("udp.port")
local ports = ""

protocol.prefs.ports = Pref.range("UDP ports", ports, "The UDP ports of ENet's servers, as 47001 or 47001-47010,50000", 65535)

function protocol.prefs_changed()
    if ports ~= "" then
        udp_ports:remove(ports, protocol)
    end
    ports = protocol.prefs.ports
    if ports ~= "" then
        udp_ports:add(ports, protocol)
    end
end

udp_ports:add_for_decode_as(protocol)
