# Bytes in the words that cases/run explains: the functions, comments, and lines `NAME := ..`, for questions and inputs alike.

function fail(m) { print FILENAME ":" FNR ": " m > "/dev/stderr"; exit 2 }
function two(n) { return sprintf("%02x", n % 256) sprintf("%02x", int(n / 256) % 256) }
function times(h, n,    r) { r = ""; while (n-- > 0) r = r h; return r }

# a pattern in the paper's notation: step count, and parent, axis and label of each step
function pattern(t,    i, c, n, at, depth, stack, axis, steps) {
    n = 0; at = 0; depth = 0; steps = ""
    if (t == ".") return "00"
    for (i = 1; i <= length(t); i++) {
        c = substr(t, i, 1)
        if (c == "[") { stack[++depth] = at; continue }
        if (c == "]") { at = stack[depth--]; continue }
        if (c != "/") fail("no pattern: " t)
        axis = 0
        if (substr(t, i + 1, 1) == "/") { axis = 1; i++ }
        c = substr(t, ++i, 1)
        n++
        steps = steps sprintf("%02x%02x%02x", at, axis, c == "*" ? 0 : index("abcdefghijklmnopqrstuvwxyz", c))
        at = n
    }
    return sprintf("%02x", n) steps
}

function nodes(t, chain,    p, i, r) {
    split(t, p, ":"); r = "0000" sprintf("%02x", p[3])
    for (i = 2; i <= p[2]; i++) r = r two(chain ? i - 1 : 1) sprintf("%02x", p[3])
    return r
}

# one word of bytes, as hexadecimal digits
function word(t,    p, i, r) {
    if (t == "-") return ""
    if (t ~ /^@/) { if (!(substr(t, 2) in named)) fail("no name " t); return named[substr(t, 2)] }
    if (t ~ /^~/) return pattern(substr(t, 2))
    if (t ~ /^"/) { r = ""; for (i = 2; i < length(t); i++) r = r sprintf("%02x", code[substr(t, i, 1)]); return r }
    if (t ~ /^chain:/) return nodes(t, 1)
    if (t ~ /^star:/) return nodes(t, 0)
    if (t ~ /\*/) { split(t, p, "*"); return times(p[1], p[2]) }
    if (t !~ /^([0-9a-f][0-9a-f])+$/) fail("no bytes: " t)
    return t
}

function bytes(t,    p, n, i, r) { r = ""; n = split(t, p, " "); for (i = 1; i <= n; i++) r = r word(p[i]); return r }

function escaped(h,    r, i) { r = ""; for (i = 1; i < length(h); i += 2) r = r "\\x" substr(h, i, 2); return r }

BEGIN { for (i = 1; i < 256; i++) code[sprintf("%c", i)] = i }
/^#/ || /^[ \t]*$/ { if (/^#/) about = substr($0, 3); next }
/:=/ { i = index($0, ":="); n = substr($0, 1, i - 1); gsub(/ /, "", n); named[n] = bytes(substr($0, i + 2)); next }
