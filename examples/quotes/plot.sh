#!/bin/sh
# Draws a symbol's best bid and best offer over the messages of a unit, with gnuplot.
#
#     ./pitch quotes < FEED | examples/quotes/plot.sh UNIT SYMBOL OUT.png
#
# A side that is empty has no line. The last best is drawn up to the last message that changed one.
# Where the bid is above the offer, standard error says so. Over the time of day ../desk/plot_day.sh
# draws.
set -eu
[ $# = 3 ] || { echo "plot.sh: usage: plot.sh UNIT SYMBOL OUT.png" >&2; exit 2; }
points=$(mktemp -d)
trap 'rm -rf "$points"' EXIT
awk -v unit="$1" -v symbol="$2" -v folder="$points" '
    function put(side) { print at, (best[side] == "" ? "NaN" : best[side]) > (folder "/" side) }
    # One message may change both sides: it is drawn when its lines have been read.
    function draw() {
        if (at == "") return
        put("B")
        put("S")
        if (best["B"] == "" || best["S"] == "") return
        if (best["B"] + 0 > best["S"] + 0 && !crossed++) from = at
    }
    $1 == "quote" && $3 == unit && $6 == symbol {
        if ($5 != at) draw()
        at = $5
        best[$7] = $8 == "-" ? "" : $8
    }
    END {
        draw()
        if (crossed) {
            words = " of the messages, first after " from
            print "plot.sh: " symbol " is crossed after " crossed words > "/dev/stderr"
        }
    }'
[ -s "$points/B" ] || { echo "plot.sh: no quote of $2 in unit $1" >&2; exit 1; }
command -v gnuplot > /dev/null || { echo "plot.sh: gnuplot is not there" >&2; exit 1; }
gnuplot <<END
set terminal pngcairo size 960,420 font "Sans,11"
set output "$3"
set title "$2, unit $1"
set xlabel "message"
set ylabel "price"
set key top left
set rmargin 6
set grid
plot "$points/S" with steps lw 2 lc rgb "#b03030" title "best offer", \
    "$points/B" with steps lw 2 lc rgb "#2050a0" title "best bid"
END
