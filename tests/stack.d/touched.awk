# What each call of touched.c touches: awk -f touched.awk PRINTED TRACE, of what that program prints and a trace of its memory by valgrind's lackey. A line for
# each call: its name, how many bytes below the caller's stack pointer the lowest byte lies that was touched, how many bytes of the block were read (one
# that is read twice counts twice), and how many of the block and the results were written.
NR == FNR && /^takum_/ { name[++names] = $1; stack[names] = number($2); next }
NR == FNR { start[$1] = number($2); end[$1] = start[$1] + $3; next }

/^ [LSM] / {
    split($2, part, ",")
    address = number(part[1])
    if (is_in("mark")) {
        if (called) print name[calls], deep, read, written
        else calls++
        called = !called
        deep = read = written = 0
    }
    if (!called) next
    if (address < stack[calls] && stack[calls] - address < 65536 && stack[calls] - address > deep) deep = stack[calls] - address
    if ($1 != "S" && is_in("block")) read += part[2]
    if ($1 != "L" && (is_in("block") || is_in("results"))) written += part[2]
}

function is_in(thing) { return address >= start[thing] && address < end[thing] }

function number(hex,    k, value) {
    for (k = 1; k <= length(hex); k++) value = value * 16 + index("0123456789abcdef", substr(hex, k, 1)) - 1
    return value
}
