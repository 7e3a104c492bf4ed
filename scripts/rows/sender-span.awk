# 8,193 packets of one byte. Number 8,193 isn't less than 8,192 past number 1, so it goes only once number 1 is acknowledged.
function packets(first,    number, text) {
    for (number = first; number < first + 32; number++) text = text packet(number)
    return text
}

function packet(number) {
    return "8600" wire(number) "0001" sprintf("%02x", (number - 1) % 256)
}

function acknowledgements(first,    number, text) {
    for (number = first; number < first + 32; number++) text = text "0100" wire(number) wire(number) "0000"
    return text
}

BEGIN {
    says("pair 1", "ok")
    for (n = 1; n <= 8193; n++) says("submit A 0.0 0 1 " sprintf("%02x", (n - 1) % 256), "ok")
    for (k = 0; k < 256; k++) says("turn A", "A#" k " 80000000" packets(32 * k + 1))
    says("turn A", "none")
    says("deliver B 0", "handled 32")
    says("turn B", "B#0 0000" acknowledgements(1))
    says("deliver A 0", "handled 32")
    says("turn A", "A#256 80000000" packet(8193))
    says("turn A", "none")
}
