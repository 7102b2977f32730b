# Compares the examples in doc comments, which stand in fences, with the lines of the tests. CALLS are the calls of
# which each has to have one. It prints what is wrong, a line each, and on the last line how many examples and calls it
# looked up.
FNR == 1 {
    split(FILENAME, parts, "/")
    crate = parts[2]
    is_test = crate ~ /^test_/
    holder = ""
    # No example goes on in the next file.
    tested[++tests] = SUBSEP
}

# In other files the tests stand last.
/^#\[cfg\(test\)\]/ { is_test = 1 }
is_test { tested[++tests] = unindented($0); next }

/^impl/ { holder = holder_of($0) }
/^}/ { holder = "" }

/^ *\/\/\/ ```/ {
    is_open = !is_open
    if (is_open) {
        place[++samples] = FILENAME ":" FNR
        is_shown = 1
    }
    next
}
is_open {
    sub(/^ *\/\/\//, "")
    sample[samples, ++size[samples]] = unindented($0)
    next
}
# The item of the doc comment, after its attributes.
is_shown && match($0, /^ *pub (fn|struct|enum|trait) [A-Za-z_]+/) {
    name = substr($0, 1, RLENGTH)
    sub(/^.* /, "", name)
    has_sample[crate "::" holder name]
    is_shown = 0
}

END {
    for (i = 1; i <= samples; i++)
        if (!is_tested(i))
            print place[i] ": no test has these lines"
    count = split(CALLS, calls, " ")
    for (i = 1; i <= count; i++)
        if (!(calls[i] in has_sample))
            print calls[i] " has no example"
    print samples + count
}

function unindented(line) { sub(/^ +/, "", line); return line }

# What stands before a method's name.
function holder_of(line) {
    sub(/^impl(<[^<>]*>)? /, "", line)
    sub(/[^A-Za-z_].*$/, "", line)
    return line "::"
}

# Whether the lines of the example stand in a test.
function is_tested(i,  start) {
    for (start = 1; start <= tests; start++)
        if (stands_at(i, start))
            return size[i] > 0
    return 0
}

function stands_at(i, start,  k) {
    for (k = 1; k <= size[i]; k++)
        if (tested[start + k - 1] != sample[i, k])
            return 0
    return 1
}
