# check-module.awk: reads an LLVM module as text, as the Rattle compiler lowers a crate (before any optimisation), and tells whether
# the width of a pointer can be seen in it. It prints nothing and ends with 0 where it cannot; else it prints what it found and ends with 1.
#
# What it tests, for the whole module:
#   1. only the instructions listed below, on integers and pointers alone; no pointer becomes a number or a number a pointer; no two
#      pointers are compared; nothing outside the module is called but memmove, memset and trap
#   2. every address is a base and a number of octets (getelementptr i8), so that no offset was left for the target to compute, but in a
#      pair of two numbers, of a pointer and an i64 behind it, or of an octet and a pointer behind it: such a pair is read, returned and
#      taken apart. The first two lie alike whatever the width of a pointer; the third is taken to have its pointer at 8, and build reads
#      it so
#   3. every lasting piece of memory has its size as a number of octets (the 8 of a pointer too: build writes them out)
#   4. no octet that holds a part of a pointer is read or written as a number, or the other way round; no two pointers overlap, and
#      none is copied in part; no pointer is left in memory that the caller of an exported function lends
#   5. a call passes what its callee takes; no operand is an expression
#
# Three forms are taken as what they are together. An exported function takes 4096 for a null that it is lent; whether it was null goes
# nowhere else. A local that is filled with zeros as a whole before anything else is done with it holds null or zero, whatever the width;
# that fill is no writing of numbers. Before a copy a function may ask whether it begins within what is copied: the distance of two
# addresses, that goes into a test against the copy's length alone. Whether it does has nothing to do with the width.
#
# For 4 each piece of memory is named by how a function reaches it: a local, a parameter, a global, or what the pointer at an octet of such
# a piece reaches, or the pointer of a pair that a function returns. What is known of an octet (pointer there, number there) goes along
# between names of the same memory, from argument to parameter, from what is stored to what is read there, and back; along copies, in both
# directions; and from there to what their pointers reach, until nothing changes. Numbers go only where a pointer is known of, since without
# one nothing can be wrong. What is indexed, or copied in a length that is no constant, must hold numbers alone.

function fail(what) { printf "%s: line %d: %s\n", (fn == "" ? "module" : fn), NR, what; bad = 1 }
function trim(s) { gsub(/^[ \t]+|[ \t,]+$/, "", s); return s }
function node(r) { return (r ~ /^@/ ? "" : fn) SUBSEP r }
function base_of(r) { used[node(r)] = 1; return (node(r) in up) ? up[node(r)] : node(r) }
function off_of(r) { return (node(r) in up) ? off[node(r)] : 0 }
function add(kind, n, o, size, at,    k) {
    k = kind SUBSEP n SUBSEP o
    if (k in size_at && size_at[k] >= size) return 0
    if (!(k in size_at)) { count[n]++; key[n, count[n]] = kind SUBSEP o; if (kind == "p") pointers[n]++ }
    size_at[k] = size
    if (!(k in where)) where[k] = at
    return 1
}
function width(t) { if (t == "ptr") return 8; if (t ~ /^i[0-9]+$/) { sub(/^i/, "", t); return t <= 8 ? 1 : t / 8 } return 0 }
# "{ ptr, i64 }" becomes "{ptr;i64}", one word without commas
function pack(s,    t) {
    while (match(s, /\{ [a-z0-9]+, [a-z0-9]+ \}/)) {
        t = substr(s, RSTART, RLENGTH)
        gsub(/ /, "", t); sub(/,/, ";", t)
        s = substr(s, 1, RSTART - 1) t substr(s, RSTART + RLENGTH)
    }
    return s
}
function is_pair(t) { return t == "{ptr;i64}" || t == "{i8;ptr}" || t ~ /^\{i(8|16|32|64);i(8|16|32|64)\}$/ }
# A pair that is read: two numbers are one number from its first octet to its last.
function access_pair(t, r,    a, b) {
    a = t; sub(/^\{/, "", a); sub(/;.*/, "", a)
    b = t; sub(/.*;/, "", b); sub(/\}$/, "", b)
    if (a == "ptr" || b == "ptr") {
        access_at(a, r, 0)
        access_at(b, r, 8)
        return
    }
    a = width(a); b = width(b)
    add("i", base_of(r), off_of(r), a > b ? 2 * a : 2 * b, fn ":" NR)
}
function access(t, r) { access_at(t, r, 0) }
function access_at(t, r, further) {
    if (width(t) == 0) { fail("reads or writes a value of type " t); return }
    add(t == "ptr" ? "p" : "i", base_of(r), off_of(r) + further, width(t), fn ":" NR)
    if (t == "ptr" && node(r) in inner) fail("a pointer at an offset that is not a constant")
}
# Register r is the address of memory n.
function names(r, n) {
    if (node(r) in used) fail("an address that is used before its definition: " line)
    up[node(r)] = n; off[node(r)] = 0
}
# The memory that the pointer at octet o of n reaches, and that which the pointer of a returned pair reaches.
function reached(n, o) { return n "->" o }
function reached_by(f) { return f SUBSEP "its result" }
# What the line makes goes nowhere but where the lines behind it say: it isn't used in the text before, either.
function keep(what) {
    if (node(result) in mentioned) fail(what " is used before its definition: " line)
    kept_in[node(result)] = what
}
# Octets o on of n are octets o2 on of n2, or a copy of them of l octets (-1: the same memory, to its end).
function link(n, o, n2, o2, l,    k) {
    k = n SUBSEP o SUBSEP n2 SUBSEP o2 SUBSEP l
    if (k in linked || n == n2 && o == o2) return 0
    linked[k] = 1
    links++; from_node[links] = n; from_off[links] = o; to_node[links] = n2; to_off[links] = o2; len[links] = l
    return 1
}
# the k-th argument's type and register, of "ptr %r0, i64 8"; the types one behind another in `types`
function args_of(list,    n, i) {
    n = split(list, arg, ",")
    types = ""
    for (i = 1; i <= n; i++) {
        arg[i] = trim(arg[i])
        if (arg[i] !~ /^(ptr|i[0-9]+)( noundef| zeroext| signext)* [^ ()]+$/) fail("a parameter of type " arg[i])
        argtype[i] = arg[i]; sub(/ .*/, "", argtype[i])
        argname[i] = arg[i]; sub(/.* /, "", argname[i])
        types = types " " argtype[i]
    }
    return n
}

BEGIN {
    m = split("add sub mul udiv urem sdiv srem and or xor shl lshr ashr zext sext trunc icmp", w, " ")
    for (i = 1; i <= m; i++) plain[w[i]] = 1
}

# What parts a list is written in a quoted name as LLVM may write it there: by its number.
/@"[^"]*[(),;]/ {
    before = ""
    while (match($0, /@"[^"]*"/)) {
        name = substr($0, RSTART, RLENGTH)
        gsub(/\(/, "\\28", name); gsub(/\)/, "\\29", name); gsub(/,/, "\\2C", name); gsub(/;/, "\\3B", name)
        before = before substr($0, 1, RSTART - 1) name
        $0 = substr($0, RSTART + RLENGTH)
    }
    $0 = before $0
}
/^;/ || /^[ \t]*$/ || /^target / || /^source_filename/ || /^attributes / || /^!/ || /^}/ || /^module asm/ {
    if ($0 ~ /^module asm/) fail("assembly")
    if ($0 ~ /^}/) fn = ""
    next
}
/^@/ {
    if ($0 ~ /[^A-Za-z0-9_]ptr[^A-Za-z0-9_]/) fail("a constant that holds a pointer")
    if ($0 ~ / external /) fail("memory that is not in the module")
    next
}
/^declare / {
    if ($0 !~ /@llvm\.(memmove\.p0\.p0\.i64|memset\.p0\.i64|trap)\(/) fail("calls what is not in the module: " $0)
    next
}
/^define / {
    fn = $0; sub(/^[^@]*@/, "", fn); sub(/\(.*/, "", fn); gsub(/"/, "", fn)
    at_entry = 1; begun = labels = null_step = near_step = 0
    list = $0; sub(/^[^(]*\(/, "", list); sub(/\)[^)]*$/, "", list)
    n = args_of(list)
    for (i = 1; i <= n; i++) {
        if (width(argtype[i]) == 0) fail("a parameter of type " argtype[i])
        param[fn, i] = argname[i]
        if ($0 !~ /^define internal / && argtype[i] == "ptr") lent[fn SUBSEP argname[i]] = 1
    }
    head = $0; sub(/@.*/, "", head); head = pack(head)
    sub(/ $/, "", head); sub(/.* /, "", head)
    if (head !~ /^(void|i1|i8|i16|i32|i64)$/ && !(is_pair(head) && $0 ~ /^define internal /)) fail("a result that is neither a number nor nothing")
    result_of[fn] = head
    defined[fn] = head types
    next
}
/^[A-Za-z0-9_.$-]+:[ \t]*(;.*)?$/ { if (begun || labels++) at_entry = 0; next }            # a label

{
    line = $0
    sub(/, ![a-z].*$/, "", line)                    # what is only known, not done
    sub(/[ \t]*;.*$/, "", line)
    line = pack(trim(line))
    result = ""
    begun = 1
    if (line ~ /^%[A-Za-z0-9_.]+ = /) { result = line; sub(/ = .*/, "", result); sub(/^[^=]*= /, "", line) }
    op = line; sub(/ .*/, "", op)

    # A null that an exported function is lent: four instructions, one behind another, of which only the last one's result is used.
    if (null_step == 1 && line == "zext i1 " null_of[1] " to i64" || null_step == 2 && line == "mul i64 " null_of[2] ", 4096") { null_of[++null_step] = result; keep("whether a pointer is null"); next }
    if (null_step == 3 && line == "getelementptr i8, ptr " null_of[0] ", i64 " null_of[3]) { null_step = 0; up[node(result)] = base_of(null_of[0]); off[node(result)] = 0; next }
    if (null_step) { fail("a pointer in icmp, and not to take another for null"); null_step = 0 }
    if (at_entry && line ~ /^icmp eq ptr %[A-Za-z0-9_.]+, null$/) {
        r = line; sub(/,.*/, "", r); sub(/.* /, "", r)
        if (node(r) in lent) { null_step = 1; null_of[0] = r; null_of[1] = result; keep("whether a pointer is null"); next }
    }

    # Whether a copy's end lies in what is copied: the distance of two addresses, that goes nowhere but into this test.
    if (near_step < 2 && line ~ /^ptrtoaddr ptr %[A-Za-z0-9_.]+ to i64$/) {
        r = line; sub(/^ptrtoaddr ptr /, "", r); sub(/ .*/, "", r)
        near_of[++near_step] = r; near_is[near_step] = result; keep("the number of an address"); next
    }
    if (near_step == 2 && line == "sub i64 " near_is[1] ", " near_is[2]) { near_is[++near_step] = result; keep("the distance of two addresses"); next }
    if (near_step == 3 && line ~ "^icmp ult i64 " near_is[3] ", %[A-Za-z0-9_.]+$") {
        r = line; sub(/.* /, "", r)
        compared[fn SUBSEP near_of[1] SUBSEP near_of[2] SUBSEP r] = fn ":" NR; near_step = 0; next
    }
    if (near_step) { fail("a pointer becomes a number, and not to see whether a copy lies in what is copied"); near_step = 0 }

    # A local that is filled with zeros as a whole, and is mentioned for the first time.
    if (at_entry && line ~ /^call void @llvm\.memset\.p0\.i64\(ptr %[A-Za-z0-9_.]+, i8 0, i64 [0-9]+, i1 false\)$/) {
        r = line; sub(/^[^%]*/, "", r); t = r; sub(/,.*/, "", r); sub(/^.*, i64 /, "", t); sub(/,.*/, "", t)
        if (node(r) in fresh && fresh[node(r)] == t + 0) { delete fresh[node(r)]; next }
    }
    rest = line
    while (match(rest, /%[A-Za-z0-9_.$-]+/)) {
        r = node(substr(rest, RSTART, RLENGTH)); rest = substr(rest, RSTART + RLENGTH)
        delete fresh[r]
        mentioned[r] = 1
        if (r in kept_in) fail(kept_in[r] " is used: " line)
    }

    if (op != "getelementptr" && line ~ / \(/) { fail("a constant expression: " line); next }
    if (op == "alloca") {
        t = line; sub(/^alloca /, "", t); sub(/, align.*/, "", t)
        if (t !~ /^(ptr|i[0-9]+|\[[0-9]+ x i8\])$/) fail("a local of type " t)
        if (t ~ /^\[/) { sub(/^\[/, "", t); sub(/ .*/, "", t); fresh[node(result)] = t + 0 } else t = width(t)
        size_of[node(result)] = t + 0
    } else if (op == "getelementptr") {
        if (line !~ /^getelementptr (inbounds |nuw |nusw )*i8, ptr %[A-Za-z0-9_.]+, i64 [%A-Za-z0-9_.]+$/ && line !~ /^getelementptr (inbounds |nuw |nusw )*i8, ptr @[^ ,]+, i64 [%A-Za-z0-9_.]+$/) { fail("an address that is not a base and a number of octets: " line); next }
        if (node(result) in used) { fail("an address that is used before its definition: " line); next }
        from = line; sub(/^[^,]*, ptr /, "", from); by = from; sub(/,.*/, "", from); sub(/.*i64 /, "", by)
        if (by ~ /^[0-9]+$/) { up[node(result)] = base_of(from); off[node(result)] = off_of(from) + by; if (node(from) in inner) inner[node(result)] = 1 }
        else {
            # somewhere inside: the base then holds numbers alone
            b = base_of(from); inside[b] = "is indexed (" fn ":" NR ")"
            inner[node(result)] = 1
        }
    } else if (op == "load") {
        t = line; sub(/^load /, "", t); r = t; sub(/,.*/, "", t); sub(/^[^,]*, ptr /, "", r); sub(/,.*/, "", r)
        if (is_pair(t)) { access_pair(t, r); pair[node(result)] = t; pair_to[node(result)] = reached(base_of(r), off_of(r) + (t == "{i8;ptr}" ? 8 : 0)); next }
        access(t, r)
        if (t == "ptr") names(result, reached(base_of(r), off_of(r)))
    } else if (op == "extractvalue") {
        t = line; sub(/^extractvalue /, "", t); r = t; sub(/ .*/, "", t); sub(/^[^ ]* /, "", r); place = r; sub(/,.*/, "", r); sub(/^[^,]*, /, "", place)
        if (!(node(r) in pair) || pair[node(r)] != t || place !~ /^[01]$/) { fail("a part of what is no pair: " line); next }
        if (t == "{ptr;i64}" && place == 0 || t == "{i8;ptr}" && place == 1) names(result, pair_to[node(r)])
    } else if (op == "store") {
        t = line; sub(/^store /, "", t); v = t; sub(/ .*/, "", t); r = v; sub(/^[^ ]* /, "", v); sub(/,.*/, "", v); sub(/^[^,]*, ptr /, "", r); sub(/,.*/, "", r)
        access(t, r)
        if (t == "ptr" && v != "null") link(base_of(v), off_of(v), reached(base_of(r), off_of(r)), 0, -1)
    } else if (op == "call") {
        if (line !~ /^call (void|i[0-9]+|\{[a-z0-9;]+\}) @/) { fail("a call of what has no name: " line); next }
        callee = line; sub(/^[^@]*@/, "", callee); list = callee; sub(/\(.*/, "", callee); gsub(/"/, "", callee); sub(/^[^(]*\(/, "", list); sub(/\)[^)]*$/, "", list)
        n = args_of(list)
        returned = line; sub(/^call /, "", returned); sub(/ .*/, "", returned)
        if (returned ~ /^\{/) {
            if (!is_pair(returned)) { fail("a call that returns a value of type " returned); next }
            pair[node(result)] = returned
            pair_to[node(result)] = reached_by(callee)
        }
        if (callee !~ /^llvm\./) { made++; made_as[made] = returned types; made_of[made] = callee; made_at[made] = fn ":" NR }
        if (callee ~ /^llvm\.memmove/) {
            if (argname[3] ~ /^[0-9]+$/) link(base_of(argname[2]), off_of(argname[2]), base_of(argname[1]), off_of(argname[1]), argname[3] + 0)
            else {
                # any part: both then hold numbers alone
                inside[base_of(argname[1])] = inside[base_of(argname[2])] = "is copied in a length that is not a constant (" fn ":" NR ")"
                delete compared[fn SUBSEP argname[1] SUBSEP argname[2] SUBSEP argname[3]]
            }
        } else if (callee ~ /^llvm\.memset/) {
            if (argname[3] !~ /^[0-9]+$/) { fail("a fill whose length is not a constant"); next }
            if (argname[3] > 0) add("i", base_of(argname[1]), off_of(argname[1]), argname[3] + 0, fn ":" NR)
        } else if (callee !~ /^llvm\.trap/) {
            # the callee may stand further down, so its parameters are named at the end
            for (i = 1; i <= n; i++) if (argtype[i] == "ptr") { calls++; arg_base[calls] = base_of(argname[i]); arg_off[calls] = off_of(argname[i]); callee_of[calls] = callee; place_of[calls] = i }
        }
    } else if (op == "br" || op == "switch" || op == "unreachable" || op == "ret" || line ~ /^(i[0-9]+ -?[0-9]+, label|\])/) {
        if (op == "ret" && line ~ /^ret ptr/) fail("a result that is a pointer")
        if (op == "ret" && line ~ /^ret \{/) {
            t = line; sub(/^ret /, "", t); r = t; sub(/ .*/, "", t); sub(/^[^ ]* /, "", r)
            if (t != result_of[fn] || !(node(r) in pair) || pair[node(r)] != t) fail("a result that is neither a number nor nothing, nor a pair that was read: " line)
            else if (t ~ /ptr/) link(pair_to[node(r)], 0, reached_by(fn), 0, -1)
        }
    } else if (op in plain) {
        if (line ~ /[^A-Za-z0-9_]ptr[^A-Za-z0-9_]/) fail("a pointer in " op)
    } else fail("an instruction that is not known here: " line)
}

# what is known at (n, o) up to l octets goes to (n2, o2), and what its pointers reach is the same; -1: no end
function along(n, o, l, n2, o2,    i, k, a, from, end, steps, known, changed) {
    changed = 0
    known = count[n]
    for (i = 1; i <= known; i++) {
        split(key[n, i], a, SUBSEP)
        k = a[1] SUBSEP n SUBSEP a[2]
        from = a[2] - o; end = from + size_at[k]
        if (end <= 0 || l >= 0 && from >= l) continue
        if (a[1] == "i") {
            if (!(n2 in pointers)) continue
            if (from < 0) from = 0
            if (l >= 0 && end > l) end = l
        } else if (from < 0) continue
        if (n2 in size_of && o2 + from >= size_of[n2]) continue
        if (add(a[1], n2, o2 + from, end - from, where[k])) changed = 1
        if (a[1] == "i") continue
        if (split(n, steps, "->") > 9) { tell(n, "memory that may reach itself"); exit 1 }
        if (link(reached(n, a[2]), 0, reached(n2, o2 + from), 0, -1)) changed = 1
    }
    return changed
}
# what holds of the whole of a piece of memory
function spread(n, n2,    changed) {
    changed = 0
    if (n in inside && !(n2 in inside)) { inside[n2] = inside[n]; changed = 1 }
    if (n in inner && !(n2 in inner)) { inner[n2] = 1; changed = 1 }
    return changed
}

# a part of a pointer: one that starts or ends outside of the octets copied, or before the memory that is passed on
function cut(n, o, l,    i, a) {
    for (i = 1; i <= count[n]; i++) {
        split(key[n, i], a, SUBSEP)
        if (a[1] != "p" || a[2] + 8 <= o || l >= 0 && a[2] >= o + l) continue
        if (a[2] < o || l >= 0 && a[2] + 8 > o + l) tell(n, "a part of a pointer is " (l < 0 ? "lent" : "copied") " (" where["p" SUBSEP n SUBSEP a[2]] ")")
    }
}
function tell(n, what) { sub(SUBSEP, " ", n); printf "%s: %s\n", n, what; bad = 1 }

END {
    for (i = 1; i <= calls; i++) link(arg_base[i], arg_off[i], callee_of[i] SUBSEP param[callee_of[i], place_of[i]], 0, -1)
    do {
        again = 0
        for (i = 1; i <= links; i++) {
            if (along(from_node[i], from_off[i], len[i], to_node[i], to_off[i])) again = 1
            if (along(to_node[i], to_off[i], len[i], from_node[i], from_off[i])) again = 1
            if (len[i] >= 0) continue
            if (spread(from_node[i], to_node[i])) again = 1
            if (spread(to_node[i], from_node[i])) again = 1
        }
        if (++rounds > 100) { print "module: a piece of memory may be a part of itself"; exit 1 }
    } while (again)
    fn = ""
    for (i = 1; i <= made; i++) {
        if (defined[made_of[i]] != made_as[i]) { printf "%s: %s is called with other parameters than it has\n", made_at[i], made_of[i]; bad = 1 }
    }
    for (k in compared) { printf "%s: two addresses are compared, and nothing is copied from one to the other\n", compared[k]; bad = 1 }
    for (i = 1; i <= links; i++) { cut(from_node[i], from_off[i], len[i]); cut(to_node[i], to_off[i], len[i]) }
    for (n in count) {
        if (!(n in pointers)) continue
        for (i = 1; i <= count[n]; i++) {
            split(key[n, i], a, SUBSEP)
            if (a[1] != "p") continue
            for (j = 1; j <= count[n]; j++) {
                split(key[n, j], q, SUBSEP)
                if (q[1] == "p" && q[2] > a[2] && q[2] < a[2] + 8) tell(n, "pointers overlap at octet " q[2])
                if (q[1] != "i") continue
                k = "i" SUBSEP n SUBSEP q[2]
                if (q[2] < a[2] + 8 && a[2] < q[2] + size_at[k]) tell(n, "octets " a[2] " on are a pointer (" where["p" SUBSEP n SUBSEP a[2]] ") and a number (" where[k] ")")
            }
        }
        if (n in inside) tell(n, "holds a pointer and " inside[n])
        if (n in inner) tell(n, "a pointer at an offset that is not a constant")
        if (n in lent) tell(n, "memory that is lent holds a pointer")
    }
    exit bad
}
