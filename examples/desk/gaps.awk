# From which block to which each unit was behind, and how far its last message then was above its
# reach at most. Of those messages some may have come, and wait for the missing ones:
#
#     ./pitch follow < FEED | awk -f examples/desk/gaps.awk
#
# A last line for each unit says how often its hold overflowed, where it did.
$1 == "block" {
    unit = $4
    status = substr($0, index($0, "; ") + 2)
    split(status, word, " ")
    if (/ overflow; /) overflows[unit]++
    if (word[1] == "behind") {
        if (!(unit in from)) {
            from[unit] = $2
            reach[unit] = word[2]
            most[unit] = 0
        }
        if (word[4] - word[2] > most[unit]) most[unit] = word[4] - word[2]
    } else if (unit in from) {
        printf "unit %d behind from block %d to %d, after %d, by at most %d\n",
            unit, from[unit], $2, reach[unit], most[unit]
        delete from[unit]
    }
}
END {
    for (unit = 0; unit < 256; unit++) {
        if (unit in from)
            printf "unit %d behind from block %d on, after %d\n", unit, from[unit], reach[unit]
        if (unit in overflows) printf "unit %d overflows %d\n", unit, overflows[unit]
    }
}
