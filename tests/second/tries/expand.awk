# Fills a try's shorthand: names of five symbols, the empty field, the usual
# numbers, and "@", the check (exclusive-or from the first 123 on). Nothing
# else is worked out here: answers, times and actions are written by hand.
BEGIN {
    name["C"] = "0 20 1 23 40"    # this coast station, 002001234
    name["K"] = "0 20 1 23 50"    # another, 002001235
    name["A"] = "20 0 56 78 90"   # ship 200056789
    name["B"] = "20 0 56 79 0"    # ship 200056790
    name["E"] = "20 0 56 79 10"   # ship 200056791
    name["X"] = "126 126 126"
    name["N"] = "105 5 55 12 34"  # number 5551234
    name["L"] = "106 60 21"       # number 6021, of a caller ashore
}
function xor(a, b,   r, p) {
    r = 0
    for (p = 1; p <= 128; p *= 2)
        if (int(a / p) % 2 != int(b / p) % 2) r += p
    return r
}
/^#/ { next }
!/[@A-Z]/ { print; next }
{
    line = $1
    for (i = 2; i <= NF; i++) line = line " " ($i in name ? name[$i] : $i)
    n = split(line, f, " ")
    begun = 0; check = 0
    for (i = 2; i <= n; i++) {
        if (!begun && f[i] == 123) begun = 1
        if (f[i] == "@") f[i] = check
        else if (begun) check = xor(check, f[i])
    }
    line = f[1]
    for (i = 2; i <= n; i++) line = line " " f[i]
    print line
}
