# 32,768 pings, each acknowledged: numbers 2 to 32,769 of channel 0xFF, number 1 counting as sent. The next one, 32,770, is dropped
# unsent by `ask`, so its number is passed over: DISCONNECT has number 32,771, and its acknowledgement isn't late.
BEGIN {
    says("pair 1", "ok")
    pings(32768)
    time = wire(500 * 32769)
    says("tick A 500", "ok")
    says("ask A 0.0 5", "ok")
    says("turn A", "A#32768 8000" time "84ff" wire(32771) "00000005")
    says("deliver B 32768", "handled 1")
    says("turn B", "B#32768 000001ff" wire(32771) wire(32771) time)
    says("deliver A 32768", "handled 1")
    says("take A", "disconnect 0.0 data 0")
}
