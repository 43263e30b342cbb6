# The lines of `quotes` as CSV, of all units and symbols or of one; an empty side has no price and
# no quantity:
#
#     ./pitch quotes < FEED | awk -v unit=1 -v symbol=IBM -f examples/quotes/quotes_csv.awk
BEGIN {
    OFS = ","
    print "unit", "at", "symbol", "side", "price", "quantity"
}
$1 == "quote" && (unit == "" || $3 == unit) && (symbol == "" || $6 == symbol) {
    print $3, $5, $6, $7, ($8 == "-" ? "" : $8), ($9 == "-" ? "" : $9)
}
