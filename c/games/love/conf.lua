-- Neither window nor sound: LÖVE runs where there is no display.
function love.conf(t)
    for _, name in ipairs({ "audio", "font", "graphics", "image", "joystick", "keyboard", "math", "mouse", "physics", "sound", "touch", "video", "window" }) do
        t.modules[name] = false
    end
end
