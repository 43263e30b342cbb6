# The order lines of the books as CSV, of all units and symbols or of one:
#
#     ./pitch follow < FEED | awk -v unit=1 -v symbol=ACME -f examples/desk/book_csv.awk
BEGIN {
    OFS = ","
    print "unit", "at", "second", "id", "side", "quantity", "symbol", "price", "hidden", "mpid"
}
$1 == "book" {
    number = $3
    at = $5
    second = $7
}
$1 == "order" && (unit == "" || number == unit) && (symbol == "" || $5 == symbol) {
    mpid = $NF ~ /^mpid=/ ? substr($NF, 6) : ""
    print number, at, second, $2, $3, $4, $5, $6, ($7 == "hidden" ? 1 : 0), mpid
}
