#!/bin/sh
# Draws best bid and best offer of symbols over the time of day, one below the other, with gnuplot.
#
#     examples/desk/plot_day.sh OUT.png SYMBOL.. < quotes.csv
#
# quotes.csv is what timed.py writes. A side that is empty has no line. Where the bid is above the
# offer, standard error says so.
set -eu
[ $# -ge 2 ] || {
    echo "plot_day.sh: usage: plot_day.sh OUT.png SYMBOL.. < quotes.csv" >&2
    exit 2
}
out=$1
shift
work=$(mktemp -d)
trap 'rm -rf "$work"' EXIT
cat > "$work/rows"
number=0
for symbol; do
    number=$((number + 1))
    symbol=$symbol awk -F, -v points="$work/$number" -v OFMT=%.9f -v CONVFMT=%.9f '
        function say(text) { print "plot_day.sh: " ENVIRON["symbol"] " " text > "/dev/stderr" }
        function price(field) { return field == "" ? "NaN" : field }
        NR > 1 && $1 != "" && $5 == ENVIRON["symbol"] {
            if (unit != "" && unit != $3) {
                say("is in units " unit " and " $3 ": take the rows of one, such as $3 == " unit)
                exit failed = 1
            }
            unit = $3
            if ($6 != "" && $8 != "" && $6 + 0 > $8 + 0 && !crossed++) from = $1
            split($1, part, ":")
            print part[1] * 3600 + part[2] * 60 + part[3], price($6), price($8) > points
        }
        END {
            if (!failed && unit == "") {
                say("has no row with a time")
                exit 1
            }
            if (crossed) say("is crossed in " crossed " rows, first at " from)
            exit failed
        }' "$work/rows"
done
command -v gnuplot > /dev/null || { echo "plot_day.sh: gnuplot is not there" >&2; exit 1; }
{
    echo "set terminal pngcairo size 960,$((300 * $#)) font 'Sans,11'"
    echo "set output '$out'"
    echo "set multiplot layout $#,1"
    echo "set grid; set key top left; set ylabel 'price'; set rmargin 6"
    echo "set xdata time; set timefmt '%s'; set format x '%H:%M:%S'"
    number=0
    for symbol; do
        number=$((number + 1))
        echo "set title '$symbol'"
        echo "plot '$work/$number' using 1:3 with steps lw 2 lc rgb '#b03030' title 'best offer'," \
            "'' using 1:2 with steps lw 2 lc rgb '#2050a0' title 'best bid'"
    done
} | gnuplot
