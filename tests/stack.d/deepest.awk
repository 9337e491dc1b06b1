# The most stack that a function and all it calls can use, from the machine code of a linked file for x86-64 or Arm.
#
#     llvm-objdump -d --no-show-raw-insn FILE | awk -v roots='NAME ...' -f tests/stack.d/deepest.awk
#
# For each root it prints a line: NAME, BYTES and the deepest path, and what it calls outside of the file, whose stack is not known and not counted.
#
# A function is walked along all its ways, one instruction after the other, with its depth: how far the stack pointer stands below where the caller left
# it. Ways that meet have to have one depth, and a return that of the call, so that a change of the pointer that was passed over is noticed. Refused is also a
# function that calls itself, by others too, and a call or a change of the stack pointer that hangs on a register. Of what a root is handed on the stack
# that part is counted which it reads. The code is taken to be a compiler's for Linux: what lies below the pointer is used on x86-64 alone, by functions that
# call nothing. It refuses some that compilers make: locals of a size that hangs on a value, and ways that never return but are not at the function's end.
BEGIN { FS = "\t" }

/file format elf64-x86-64/ { x86 = 1; pushed = 8 } # a call pushes the address to return to; on Arm it stays in a register
/file format elf64-littleaarch64/ { arm = 1; pushed = 0 }
/^Disassembly of section / { in_text = /section \.text/ }
in_text && /^[0-9a-f]+ <.*>:$/ {
    here = n + 1
    name[here] = $0
    sub(/^[0-9a-f]+ </, "", name[here])
    sub(/>:$/, "", name[here])
    entry[name[here]] = here
}
in_text && /^ *[0-9a-f]+:/ {
    place[++n] = $1
    gsub(/[ :]/, "", place[n])
    at[place[n]] = n
    of[n] = here
    code[n] = $2
    args[n] = $3
    for (k = 4; k <= NF; k++) args[n] = args[n] " " $k
    if (x86) sub(/ +#.*/, "", args[n]) # a comment
    if (arm) sub(/ +\/\/.*/, "", args[n])
}

END {
    if (!x86 && !arm) refuse(0, "this is no disassembly for x86-64 or Arm")
    count = split(roots, root, " ")
    for (k = 1; k <= count; k++) {
        if (!(root[k] in entry)) refuse(0, "there is no function " root[k])
        f = entry[root[k]]
        bytes = most(f) + handed[f]
        if (hides[f]) refuse(f, "it points to what it is handed on the stack, which can't be counted then")
        print root[k], bytes, path[f] (handed[f] ? ", and " handed[f] " that it is handed" : "") (outside[f] ? "; outside:" outside[f] : "")
    }
}

function refuse(i, why) {
    print "deepest.awk: " (i ? name[of[i]] ", at " place[i] ": " : "") why >"/dev/stderr"
    exit 1
}

# ---- The functions, each after those that it calls.
function most(f,    k, g, deepest, bytes) {
    if (f in total) return total[f]
    if (f in begun) refuse(f, "it calls itself, directly or by others")
    begun[f] = 1
    walk(f)
    deepest = own[f]
    path[f] = name[f] " " own[f]
    for (k = 1; k <= calls[f]; k++) {
        g = callee[f, k]
        bytes = from[f, k] + (g in name ? most(g) : pushed)
        add_outside(f, g in name ? outside[g] : g)
        if ((f, k) in in_place && handed[g] > handed[f]) handed[f] = handed[g]
        if ((f, k) in in_place && hides[g]) hides[f] = 1
        if (bytes > deepest) {
            deepest = bytes
            path[f] = name[f] " " from[f, k] " > " (g in name ? path[g] : g)
        }
    }
    return total[f] = deepest
}

function add_outside(f, names,    k, count, list) {
    count = split(names, list, " ")
    for (k = 1; k <= count; k++) if (!index(outside[f] " ", " " list[k] " ")) outside[f] = outside[f] " " list[k]
}

# ---- One function, along all its ways.
function walk(f,    i, d, pointer) {
    own[f] = handed[f] = hides[f] = left = calls_some = points_below = 0
    table = frame_pointer = -1
    go_on(f, pushed)
    do {
        while (left) {
            i = next_place[left]
            d = next_depth[left--]
            while (i) {
                if (i in depth) {
                    if (depth[i] != d) refuse(i, "two ways meet here at " depth[i] " and " d " bytes")
                    break
                }
                depth[i] = d
                look(i)
                if (d + below > own[f]) own[f] = d + below
                if (above > d && above - d > handed[f]) handed[f] = above - d
                if (points_above) hides[f] = 1
                d += down
                if (d < pushed) refuse(i, "more is taken off the stack than was put there")
                if (d > pointer) pointer = d
                i = follow(f, i, d)
            }
        }
    } while (table >= 0 && go_on_by_table(f))
    if (table >= 0 && !table_led) refuse(f, "a jump by a table that leads nowhere")
    # Below the stack pointer there are 128 bytes for a function that calls nothing. Where it has pointers to there, it can use them all.
    if (points_below && !calls_some) pointer += 128
    if (pointer > own[f]) own[f] = pointer
    for (i = f; of[i] == f; i++) if (!(i in depth) && !is_filler(i)) refuse(i, "no way leads here")
}

function go_on(i, d) {
    next_place[++left] = i
    next_depth[left] = d
    return 1
}

# A jump by a table leads to places that nothing else leads to, and leaves the stack pointer where it is.
function go_on_by_table(f,    i) {
    for (i = f; of[i] == f; i++) if (!(i in depth) && !is_filler(i)) {
        table_led = 1
        return go_on(i, table)
    }
    return 0
}

# What stands between functions, and behind what never returns.
function is_filler(i) { return code[i] ~ /^(nop|ud2|int3|udf|brk|\.)/ || args[i] ~ /^ *nop|^%ax, %ax$/ }

# The instruction after i, 0 where the way ends; d is the depth after i.
function follow(f, i, d,    k) {
    if (way == "end") return 0
    if (way == "return") {
        if (d != pushed) refuse(i, "it returns at " d " bytes")
        return 0
    }
    if (way == "table") {
        if (table >= 0 && table != d) refuse(i, "two jumps by a table, at " table " and " d " bytes")
        table = d
        table_led = 0
        return 0
    }
    if (way == "call") {
        note_call(f, i, d)
        calls_some = 1
        for (k = i + 1; of[k] == f && is_filler(k);) k++
        if (of[k] != f) return 0 # what it calls never returns
    }
    if (way == "jump" || way == "branch") {
        if (target(i) in at && of[at[target(i)]] == f) go_on(at[target(i)], d)
        else {
            if (d != pushed) refuse(i, "it leaves for another function at " d " bytes")
            note_call(f, i, 0)
            in_place[f, calls[f]] = 1 # it returns in this one's place, and is handed what this one was
        }
        if (way == "jump") return 0
    }
    if (of[i + 1] != f) refuse(i, "the function runs on into the next one")
    return i + 1
}

function note_call(f, i, d,    g) {
    g = target(i)
    if (g !~ /^[0-9a-f]+$/) refuse(i, "a call that hangs on a register: " code[i] " " args[i])
    if (g in at) {
        if (of[at[g]] != at[g]) refuse(i, "it leads into the middle of " name[of[at[g]]])
        g = at[g]
    } else {
        g = args[i]
        sub(/^.*</, "", g)
        sub(/(@plt)?>.*$/, "", g)
    }
    callee[f, ++calls[f]] = g
    from[f, calls[f]] = d
}

# The address that an instruction leads to, from its last operand: `0x12c4 <takum_read_block+0xa0>`.
function target(i,    a) {
    a = args[i]
    sub(/ *<.*$/, "", a)
    sub(/^.*[, ]/, "", a)
    sub(/^0x/, "", a)
    return a
}

# ---- One instruction: by how much it moves the stack pointer down, how far below and above the pointer it reaches, and where it leads.
function look(i) {
    down = below = above = points_above = 0
    way = "on"
    if (code[i] ~ /unknown/) refuse(i, "an instruction that llvm-objdump does not know")
    if (x86) look_x86(i, code[i], args[i])
    if (arm) look_arm(i, code[i], args[i])
}

function look_x86(i, c, a,    offset) {
    if (c ~ /^pushq?$/) down = 8
    else if (c ~ /^popq?$/ && a != "%rsp") down = -8
    else if (c ~ /^callq?$/) way = "call"
    else if (c ~ /^retq?$/ && a == "") way = "return"
    else if (c == "ud2") way = "end"
    else if (c ~ /^jmpq?$/ && a ~ /^\*/) way = by_table(i, substr(a, 2))
    else if (c ~ /^jmpq?$/) way = "jump"
    else if (c ~ /^(j|loop)/) way = is_probe(i - 3) ? "on" : "branch"
    else if (is_probe(i)) down = number(args[i - 1])
    else if (c == "subq" && a ~ /^\$[^,]*, %rsp$/) down = number(a)
    else if (c == "addq" && a ~ /^\$[^,]*, %rsp$/) down = -number(a)
    else if (c == "leaq" && a ~ /^[^(]*\(%rsp\), %rsp$/) down = -number(a)
    else if (a ~ /%(rsp|esp|sp|spl)$/ && c !~ /^(cmp|test)/) refuse(i, "a change of the stack pointer that is not understood: " c " " a)
    else if (c ~ /^(push|pop|enter|leave|ret|lret|iret|sys)/ && c !~ /^popcnt/ || a ~ /^ *(push|pop|call|jmp|j[a-z]+ |ret)/ || (c ~ /xchg|xadd/ && a ~ /%[re]?sp/))
        refuse(i, "an instruction that is not understood: " c " " a)
    else if (a == "%rsp, %rbp") refuse(i, "a frame pointer is not understood")
    if (down && c !~ /^push/) return # what is left speaks of %rsp itself
    if ((a ~ /(^|, )%rsp(,|$)/ && c !~ /^(cmp|test)/ && !is_probe(i + 2)) || a ~ /\(%rsp,/ || (c == "leaq" && a ~ /\(%rsp\)/)) points_below = 1
    # What it is handed on the stack lies above its return address.
    if (match(a, /[-x0-9a-f]*\(%rsp[,)]/)) {
        offset = number(substr(a, RSTART))
        if (offset < 0) below = -offset
        else if (offset >= depth[i]) {
            above = offset + (a ~ /%ymm/ ? 32 : a ~ /%xmm/ || c ~ /^f.*t$/ ? 16 : 8)
            points_above = c == "leaq" || a ~ /\(%rsp,/
        }
    }
}

# A large frame is touched page by page, or in smaller steps: movq %rsp, %r11; subq $SIZE, %r11; i: subq $STEP, %rsp; movq $0, (%rsp); cmpq %r11, %rsp;
# jne i.
function is_probe(i,    step) {
    if (code[i] != "subq" || args[i] !~ /^\$[^,]*, %rsp$/) return 0
    step = number(args[i])
    return step > 0 && step <= 4096 && args[i - 2] == "%rsp, %r11" && code[i - 1] == "subq" && args[i - 1] ~ /^\$[^,]*, %r11$/ &&
        number(args[i - 1]) % step == 0 && args[i + 2] == "%r11, %rsp" && code[i + 3] == "jne" && target(i + 3) == place[i]
}

# The same on Arm, where x9 = sp - SIZE can be computed before the frame's first values are put away: sub x9, sp, #SIZE; ..; i: sub sp, sp, #STEP; cmp sp, x9;
# str xzr, [sp]; b.ne i. What is answered is the size, and 0 where it is none.
function arm_probe(i,    k, step, size) {
    if (code[i] != "sub" || args[i] !~ /^sp, sp, #/ || code[i + 1] != "cmp" || args[i + 1] != "sp, x9") return 0
    if (code[i + 2] != "str" || args[i + 2] != "xzr, [sp]" || code[i + 3] != "b.ne" || target(i + 3) != place[i]) return 0
    for (k = i - 1; of[k] == of[i] && args[k] !~ /^[xw]9,|\]!$|\[sp\], #|^sp,/ && code[k] !~ /^(b|b\..*|bl|br|blr|ret|cbn?z|tbn?z|ldp)$/;) k--
    if (of[k] != of[i] || code[k] != "sub" || args[k] !~ /^x9, sp, #/) return 0
    step = number(substr(args[i], 10)) * (args[i] ~ /lsl #12$/ ? 4096 : 1)
    size = number(substr(args[k], 10)) * (args[k] ~ /lsl #12$/ ? 4096 : 1)
    return step > 0 && step <= 4096 && size % step == 0 ? size : 0
}

function look_arm(i, c, a,    offset) {
    if (c == "bl") way = "call"
    else if (c == "b") way = "jump"
    else if (c == "br") way = by_table(i, a)
    else if (c ~ /^(b\.|cbn?z|tbn?z)/) way = arm_probe(i - 3) ? "on" : "branch"
    else if (c == "ret" && a == "") way = "return"
    else if (c ~ /^(brk|udf)$/) way = "end"
    else if (arm_probe(i)) down = arm_probe(i)
    else if (c ~ /^(sub|add)$/ && a ~ /^sp, sp, #/) down = (c == "sub" ? 1 : -1) * number(substr(a, 10)) * (a ~ /lsl #12$/ ? 4096 : 1)
    else if (a ~ /\[sp, #.*\]!$/) down = -number(substr(a, index(a, "[sp, #") + 6))
    else if (a ~ /\[sp\], #/) down = -number(substr(a, index(a, "[sp], #") + 7))
    else if (c == "blr") refuse(i, "a call that hangs on a register: " c " " a)
    else if (c ~ /^(blr|bra|ret|eret|svc)/ || a ~ /\[sp\], / || (a ~ /^w?sp,/ && c !~ /^cm[pn]$/)) refuse(i, "an instruction that is not understood: " c " " a)
    else if (a ~ /^x[0-9]+, sp(, #|$)/) {
        offset = a ~ /#/ ? number(substr(a, index(a, "#") + 1)) * (a ~ /lsl #12$/ ? 4096 : 1) * (c == "sub" ? -1 : 1) : 0
        if (a ~ /^x29/) frame_pointer = depth[i] - offset
        points_above = offset >= depth[i]
    } else if (match(a, /\[(sp|x29)(\]|, #)/)) {
        offset = substr(a, RSTART + RLENGTH - 1, 1) == "#" ? number(substr(a, RSTART + RLENGTH)) : 0
        if (a ~ /\[x29/ && frame_pointer < 0) return # a register like any other
        if (a ~ /\[x29/) offset += depth[i] - frame_pointer # from the stack pointer
        if (offset < 0) below = -offset
        else if (offset >= depth[i]) above = offset + (a ~ /^q/ ? 16 : 8) * (c ~ /^(ld|st)n?p/ ? 2 : 1)
    }
}

# Before a jump by a table the place of the table is added to what stands in it; any other jump by a register may lead out of the function.
function by_table(i, register,    k) {
    for (k = i - 1; of[k] == of[i] && code[k] !~ /^(j|call|ret|b$|b[.lr]|cb|tb)/; k--) if (written(k) == register && code[k] !~ /^(cmp|test)/) {
        if (code[k] ~ /^addq?$/) return "table"
        break
    }
    refuse(i, "a jump that hangs on a register: " code[i] " " args[i])
}

# The register that an instruction writes: on x86-64 the last one that it names, on Arm the first.
function written(i,    a) {
    a = args[i]
    if (x86) sub(/^.*, /, "", a)
    else sub(/,.*$/, "", a)
    return a
}

# The number that a text begins with: 48, -0x30, $24.
function number(text,    sign, value, k, digit) {
    sub(/^\$/, "", text)
    sign = sub(/^-/, "", text) ? -1 : 1
    if (!sub(/^0x/, "", text)) return sign * (text + 0)
    for (k = 1; k <= length(text) && (digit = index("0123456789abcdef", substr(text, k, 1))); k++) value = value * 16 + digit - 1
    return sign * value
}
