# 65,537 pings, each acknowledged: numbers 2 to 65,535 of channel 0xFF, number 1 counting as sent, then 0, 1 and 2.
BEGIN {
    says("pair 1", "ok")
    pings(65537)
}
