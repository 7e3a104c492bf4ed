# Of 40,000 empty packets 8,192 go, in 256 datagrams of 32 commands: number 8,193 isn't less than 8,192 past number 1. So number 1,
# which goes again with the next 31 after 500 ms, is never more than 8,191 late.
function packets(first,    number, text) {
    for (number = first; number < first + 32; number++) text = text "8600" wire(number) "0000"
    return text
}

BEGIN {
    says("pair 1", "ok")
    for (n = 0; n < 40000; n++) says("submit A 0.0 0 1 -", "ok")
    for (k = 0; k < 256; k++) says("turn A", "A#" k " 80000000" packets(32 * k + 1))
    says("turn A", "none")
    says("tick A 500", "ok")
    says("turn A", "A#256 800001f4" packets(1))
    says("deliver B 256", "handled 32")
}
