# Turns the cases of the files into a stream of questions (as \x escapes, a line each), the lines expected, and names.
# It stands on words.awk.

# the largest number there is, or a small one, as eight bytes
function eight(t,    r, i, n) {
    if (t == "max") return times("ff", 8)
    if (t == "2^32") return "0000000001000000"
    if (t ~ /^2\^32\+/) { n = substr(t, 6) + 0; return two(n) "000001000000" }
    n = t + 0; r = ""
    for (i = 0; i < 8; i++) { r = r sprintf("%02x", n % 256); n = int(n / 256) }
    return r
}

# an answer: words after the number may be @, ~, "text" and .., which stand for the lent bytes
function answer(t,    p, n, i, r, lent) {
    n = split(t, p, " "); r = p[1]; lent = ""
    for (i = 2; i <= n; i++) {
        if (p[i] == "..") { while (length(lent) < 2 * room) lent = lent "a5"; continue }
        if (p[i] ~ /^[@~"]/) { lent = lent word(p[i]); continue }
        r = r " " p[i]
    }
    if (lent != "") r = r " " lent
    return r
}

/^=/ { print answer(substr($0, 3)) > expected; next }
{
    letter = substr($0, 1, 1); count = split(substr($0, 2), part, "|"); q = sprintf("%02x", code[letter])
    for (i = 1; i <= count; i++) {
        gsub(/^ +| +$/, "", part[i])
        if (part[i] ~ /^#/) { q = q eight(substr(part[i], 2)); continue }
        if (part[i] ~ /^%/) { room = substr(part[i], 2) + 0; q = q two(room); continue }
        h = bytes(part[i]); q = q two(length(h) / 2) h
    }
    print escaped(q) > questions
    print FILENAME ":" FNR ": " about > names
}
