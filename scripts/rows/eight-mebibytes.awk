# A reliable packet of 8 MiB, whose bytes count from 0 to 250 again and again, goes in 6,151 fragments, the last of 8 bytes. Each is
# acknowledged before the next one goes, and nothing is dispatched before the last.
function counting(len,    period, text, n) {
    for (n = 0; n < 251; n++) period = period sprintf("%02x", n)
    text = period
    while (length(text) < 2 * len) text = text text
    return substr(text, 1, 2 * len)
}

BEGIN {
    period = counting(251 * 7)
    body = counting(8388608)
    says("pair 1", "ok")
    says("submit A 0.0 0 1 " body, "ok")
    for (n = 0; n < 6151; n++) {
        len = n == 6150 ? 8 : 1364
        text = substr(period, 2 * (n * 1364 % 251) + 1, 2 * len)
        place = sprintf("%08x%08x%08x%08x", 6151, n, 8388608, n * 1364)
        says("take B", "none")
        says("turn A", "A#" n " 80000000" "8800" wire(n + 1) "0001" sprintf("%04x", len) place text)
        says("deliver B " n, "handled 1")
        says("turn B", "B#" n " 00000100" wire(n + 1) wire(n + 1) "0000")
        says("deliver A " n, "handled 1")
    }
    says("turn A", "none")
    says("take B", "receive 0.0 ch 0 flags 1 " body)
    says("take B", "none")
}
