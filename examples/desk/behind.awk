# The last status of each unit. The exit status is 1 where a unit is behind at the end, and 3 where
# the text has no line of a block:
#
#     ./pitch follow < FEED | awk -f examples/desk/behind.awk
$1 == "block" { last[$4] = substr($0, index($0, "; ") + 2) }
END {
    status = 3
    for (unit = 0; unit < 256; unit++) {
        if (!(unit in last)) continue
        print "unit " unit " " last[unit]
        if (status == 3) status = 0
        if (last[unit] ~ /^behind/) status = 1
    }
    exit status
}
