-- LÖVE's ENet, which is a part of its program: `love FOLDER serve|visit PORT`. The client has fifty packets sent back, of which every third
-- is longer than a datagram, and leaves. Status 0 where all came in order, and where the server saw the client leave.
local enet = require("enet")
local PACKETS = 50

local function body(number)
    local length = number % 3 == 0 and 2000 + 100 * number or 20 * number
    return string.rep(string.char(64 + number), length)
end

local function serve(port)
    local host = enet.host_create("127.0.0.1:" .. port, 4, 2)
    local ends = love.timer.getTime() + 20
    while love.timer.getTime() < ends do
        local event = host:service(50)
        if event and event.type == "receive" then
            event.peer:send(event.data, event.channel, "reliable")
        elseif event and event.type == "disconnect" then
            host:service(100)
            return event.data == 7
        end
    end
    return false
end

-- The next event, for so many seconds at most.
local function await(host, seconds)
    local ends = love.timer.getTime() + seconds
    while love.timer.getTime() < ends do
        local event = host:service(50)
        if event then
            return event
        end
    end
    return { type = "nothing" }
end

local function visit(port)
    local host = enet.host_create(nil, 1, 2)
    local peer = host:connect("127.0.0.1:" .. port, 2, 42)
    if await(host, 5).type ~= "connect" then
        return false
    end
    for number = 1, PACKETS do
        peer:send(body(number), 0, "reliable")
    end
    for number = 1, PACKETS do
        local event = await(host, 10)
        if event.type ~= "receive" or event.data ~= body(number) then
            print("packet " .. number .. ": " .. event.type)
            return false
        end
    end
    peer:disconnect(7)
    return await(host, 5).type == "disconnect"
end

function love.run()
    local words = love.arg.parseGameArguments(arg)
    local good = ({ serve = serve, visit = visit })[words[1]](words[2])
    return function()
        return good and 0 or 1
    end
end
