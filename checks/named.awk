# Looks up what a page names in back-ticks, and tells of each name that doesn't stand where the page says, by its line.
# The first file has the facts of `stands.awk`, with `path PATH` of each file and folder, `edit CRATE NAME` of each
# edit, and `command NAME`; the second is a page, whose path is PAGE. The last line is how many names were looked up.
BEGIN {
    FS = "\t"
    folder = PAGE
    if (!sub(/\/[^\/]*$/, "", folder))
        folder = ""
    # The README has words in back-ticks that are no names, as those of traces and reports.
    strict = PAGE != "README.md"
    # Only the tests' part of this page is looked at.
    waits_for = PAGE ~ /DEVELOPING/ ? "What is only tested" : ""
}

function method_of(wanted) { sub(/^.*::/, "", wanted); return wanted }

NR == FNR && $1 == "fn" {
    is_crate[$2]
    is_fn[$2, $3]
    with_name[$2, method_of($3)] = $3
    is_fn_somewhere[$3]
}
NR == FNR && $1 == "clause" { is_clause[$2, $3, $4] }
NR == FNR && $1 == "cites" { cited[$2, $3] = cited[$2, $3] " " $4 }
NR == FNR && ($1 == "type" || $1 == "definition") { is_named[$2, $3] }
NR == FNR && $1 == "field" { is_field[$2, $3] }
NR == FNR && $1 == "body" && !(($2, $3) in is_part) { is_part[$2, $3]; body[$2] = body[$2] " " $3 }
NR == FNR && $1 == "word" {
    in_file[$2, $3]
    split($2, parts, "/")
    in_crate[parts[2], $3]
    is_known[$3]
    files_with[$3] = files_with[$3] " " $2
}
NR == FNR && $1 == "path" { is_path[$2] }
NR == FNR && $1 == "edit" { is_edit[$2, $3]; edits[$2 "/" $3]; is_known[$3] }
NR == FNR && $1 == "private" { is_private[$2] }
NR == FNR && $1 == "rests" { rests[$2, $3] = rests[$2, $3] " " $4 }
NR == FNR && $1 == "opens" { opens[$2] = opens[$2] " " $3 }
NR == FNR && $1 == "public" { public[$2 "\t" $3] }
NR == FNR && $1 == "exported" { is_exported[$2, $3] }
NR == FNR && $1 == "command" { is_command[$2] }
NR == FNR && $1 == "explained" { is_explained[$2] }
NR == FNR && $1 == "tested" { tests_of[$2] = $3 }
NR == FNR { next }

# Counts a name, and tells of it where it doesn't stand there.
function look(stands, wanted, where) {
    looked++
    if (!stands)
        print PAGE ":" FNR ": `" wanted "` isn't " where
}

# The names in back-ticks, `name`, and what is between each and the next, `after`; their number.
function names_of(text,  parts, count, i) {
    count = split(text, parts, "`")
    for (i = 2; i <= count; i += 2) {
        name[i / 2] = parts[i]
        after[i / 2] = parts[i + 1]
    }
    return int(count / 2)
}

# Whose the name is, in `whose`: that of `A of B` and `A and C of B` is B's.
function find_owners(count,  i) {
    for (i = count; i >= 1; i--) {
        is_owner[i] = i > 1 && after[i - 1] == " of "
        whose[i] = after[i] == " of " ? name[i + 1] : after[i] == " and " ? whose[i + 1] : ""
    }
}

# Whether the contract of the function cites the definition, or cites one that does, and so on.
function reaches(crate, func_name, wanted,  queue, next_one, last, parts, count, i, met) {
    last = split(cited[crate, func_name], queue, " ")
    for (next_one = 1; next_one <= last; next_one++) {
        if (queue[next_one] == wanted)
            return 1
        if (!(queue[next_one] in met)) {
            met[queue[next_one]]
            count = split(body[queue[next_one]], parts, " ")
            for (i = 1; i <= count; i++)
                queue[++last] = parts[i]
        }
    }
    return 0
}

# Whether the contract of the function has a clause of that name, or cites a definition with such a part.
function has_clause(crate, func_name, wanted,  parts, count, i) {
    if ((crate, func_name, wanted) in is_clause)
        return 1
    count = split(cited[crate, func_name], parts, " ")
    for (i = 1; i <= count; i++)
        if ((parts[i], wanted) in is_field)
            return 1
    return 0
}

# The function that is named so in the crate: a method without its type is of the type named last.
function function_of(crate, wanted) {
    if (wanted ~ /::/) {
        last_type = wanted
        sub(/::.*$/, "", last_type)
        return (crate, wanted) in is_fn ? wanted : ""
    }
    if (last_type != "" && (crate, last_type "::" wanted) in is_fn)
        return last_type "::" wanted
    return (crate, wanted) in is_fn ? wanted : with_name[crate, wanted]
}

# That none of these files of definitions is private.
function look_at_files(list, citing,  files, count, i) {
    count = split(list, files, " ")
    for (i = 1; i <= count; i++)
        if (!((files[i], citing) in met_file)) {
            met_file[files[i], citing]
            look(!(files[i] in is_private), files[i], "promised, and `" citing "` cites it")
        }
}

# The functions, types and definitions in front of a colon.
function look_at_functions(text, crate,  count, i, at, found) {
    count = names_of(text)
    find_owners(count)
    functions = 0
    for (i = 1; i <= count; i++) {
        if (is_owner[i])
            continue
        at = whose[i] != "" ? whose[i] : crate
        if (name[i] ~ /^[A-Z][A-Za-z]*$/) {
            look((at, name[i]) in is_named, name[i], "a type or a definition of crates/" at)
        } else {
            found = function_of(at, name[i])
            look(found != "", name[i], "a function of crates/" at "/src")
            if (PAGE ~ /PROMISES/)
                look_at_files(rests[at, found], found)
            function_crate[++functions] = at
            function_name[functions] = found
            row_crate[++row_functions] = at
            row_function[row_functions] = found
        }
    }
}

# The clauses, and parts of what they cite, behind a colon: each is in each of the functions.
function look_at_clauses(text,  count, i, k, owner, stands) {
    count = names_of(text)
    find_owners(count)
    for (i = 1; i <= count; i++) {
        if (name[i] in is_crate && is_owner[i])
            continue
        owner = whose[i] in is_crate ? "" : whose[i]
        if (owner != "") {
            look((owner, name[i]) in is_field || (owner, name[i]) in is_part, name[i], "a part of `" owner "`")
            continue
        }
        for (k = 1; k <= functions; k++) {
            if (name[i] ~ /^[A-Z]/)
                stands = reaches(function_crate[k], function_name[k], name[i])
            else
                stands = has_clause(function_crate[k], function_name[k], name[i])
            look(stands, name[i], "in the contract of `" function_name[k] "` in crates/" function_crate[k] "/src")
        }
    }
}

function look_at_contract(cell, crate,  segments, count, i) {
    last_type = ""
    count = split(cell, segments, /; /)
    for (i = 1; i <= count; i++)
        if (match(segments[i], /`: /)) {
            look_at_functions(substr(segments[i], 1, RSTART), crate)
            look_at_clauses(substr(segments[i], RSTART + RLENGTH))
        } else {
            look_at_functions(segments[i], crate)
        }
}

# A name that stands in no contract's column: in the crate, where there is one, or anywhere.
function look_at_mention(wanted, crate,  last) {
    if (wanted ~ /^[a-zA-Z_.]+\/[a-zA-Z0-9_.\/-]*$/) {
        sub(/\/$/, "", wanted)
        look(wanted in is_path || folder "/" wanted in is_path, wanted, "there")
    } else if (wanted ~ /^definition_$|^test_$|^[A-Z]$/ || wanted !~ /^[A-Za-z_][A-Za-z0-9_:-]*$/) {
        return
    } else if (wanted ~ /::/) {
        last = method_of(wanted)
        look(wanted in is_fn_somewhere || wanted ~ /^tests::/ && is_test(wanted), wanted, "a function of any crate")
    } else if (crate != "") {
        look((crate, wanted) in in_crate || (tests_of[crate], wanted) in in_crate || wanted in is_crate \
            || wanted in is_command, wanted, "in crates/" crate)
    } else if (strict || wanted ~ /[A-Z_]/) {
        look(wanted in is_known || wanted in is_crate || wanted in is_command, wanted, "in any crate")
    }
}

# Whether `tests::file::function` is a function of the tests of some crate.
function is_test(wanted,  parts, count, files, i, last, at) {
    count = split(wanted, parts, "::")
    last = parts[count]
    count = split(files_with[last], files, " ")
    for (i = 1; i <= count; i++) {
        at = files[i]
        gsub(/^crates\/|\/.*$/, "", at)
        if (files[i] ~ "/src/tests/" parts[2] "\\.rt$" && (at, last) in is_fn)
            return 1
    }
    return 0
}

# What is said of the tests of these crates: a name of several words is a function of the tests or of the code.
function look_at_tests(text, crates,  count, i, all, stands, at, parts, k) {
    count = names_of(text)
    for (i = 1; i <= count; i++)
        all[i] = name[i]
    for (i = 1; i <= count; i++)
        if (all[i] ~ /^[a-z]+_[a-z_]+$/) {
            stands = 0
            for (k = split(crates, parts, /, /); k >= 1; k--)
                for (at in is_crate)
                    if (at == parts[k] || at == tests_of[parts[k]])
                        stands = stands || (at, all[i]) in with_name
            look(stands, all[i], "a function of the tests of " crates)
        } else {
            look_at_mention(all[i], crates ~ /,/ ? "" : crates)
        }
}

function look_at_mentions(text, crate,  count, i, all) {
    count = names_of(text)
    for (i = 1; i <= count; i++)
        all[i] = name[i]
    for (i = 1; i <= count; i++)
        look_at_mention(all[i], crate)
}

function look_at_links(text,  target) {
    while (match(text, /\]\([^)]*\)/)) {
        target = substr(text, RSTART + 2, RLENGTH - 3)
        text = substr(text, RSTART + RLENGTH)
        if (target ~ /^https?:/)
            continue
        sub(/#.*$/, "", target)
        sub(/\/$/, "", target)
        if (target ~ /^\.\.\//)
            sub(/^\.\.\//, "", target)
        else if (folder != "")
            target = folder "/" target
        look(target in is_path, target, "there")
    }
}

# A row that says in which files its names stand.
function look_at_row_with_files(count_of_cells,  count, i, k, files, found, file) {
    count = names_of(cells[count_of_cells])
    files = 0
    for (i = 1; i <= count; i++)
        if (name[i] ~ /\//)
            row_file[++files] = name[i]
    look_at_mentions(cells[count_of_cells], "")
    if (files == 0)
        return
    for (k = 1; k < count_of_cells; k++) {
        count = names_of(cells[k])
        for (i = 1; i <= count; i++) {
            if (name[i] !~ /^[A-Za-z_][A-Za-z0-9_-]*$/)
                continue
            found = 0
            for (file = 1; file <= files && !found; file++)
                found = stands_in(row_file[file], name[i])
            look(found, name[i], "in the files of its row")
        }
    }
}

# Whether the word is in the file, or in one of the folder.
function stands_in(path, wanted,  files, count, i) {
    if ((path, wanted) in in_file)
        return 1
    count = split(files_with[wanted], files, " ")
    for (i = 1; i <= count; i++)
        if (index(files[i], path "/") == 1)
            return 1
    return 0
}

# The row of a claim: its contracts stand in its files and cite its definitions, which DEFINITIONS.md explains; its
# command proves a function; and its edits are there. The crate is that of the first file.
function look_at_claim(  crate, count, i, k, stands, parts) {
    count = names_of(cells[3])
    for (i = 1; i <= count; i++) {
        claim_file[i] = name[i]
        look(name[i] in is_path, name[i], "there")
    }
    split(claim_file[1], parts, "/")
    crate = parts[2]
    row_functions = 0
    if (cells[2] ~ /`: /)
        look_at_contract(cells[2], crate)
    for (k = 1; k <= row_functions; k++) {
        stands = 0
        for (i = 1; i <= count; i++)
            stands = stands || (claim_file[i], method_of(row_function[k])) in in_file
        look(stands, row_function[k], "in the files of its row")
    }
    count = names_of(cells[4])
    for (i = 1; i <= count; i++) {
        stands = name[i] !~ /^[A-Z]/
        for (k = 1; k <= row_functions; k++)
            stands = stands || reaches(row_crate[k], row_function[k], name[i])
        look(stands && name[i] in is_explained, name[i], "explained in DEFINITIONS.md, or not cited")
    }
    count = names_of(cells[5])
    for (i = 1; i <= count; i++) {
        split(name[i], parts, " ")
        sub(/^crates\//, "", parts[2])
        stands = parts[2] in is_crate && (parts[7] == "" || (parts[2], parts[7]) in with_name)
        look(stands, name[i], "a proof of a function")
    }
    look_at_claims_edits(cells[6], crate)
}

# Edits of a crate, and behind a semicolon `of` another one's.
function look_at_claims_edits(cell, crate,  segments, last, k, i, count, at) {
    last = split(cell, segments, /; /)
    for (k = 1; k <= last; k++) {
        count = names_of(segments[k])
        at = segments[k] ~ /^of / ? name[1] : crate
        for (i = at == name[1] ? 2 : 1; i <= count; i++)
            look((at, name[i]) in is_edit, name[i], "an edit of crates/" at "/must-fail")
    }
}

# The row of an edit: its crate is `trace` where it names none.
function look_at_edit(  crate, count) {
    count = names_of(cells[1])
    crate = count > 1 ? name[2] : "trace"
    look((crate, name[1]) in is_edit, name[1], "an edit of crates/" crate "/must-fail")
    delete edits[crate "/" name[1]]
    has_edits = 1
    look_at_contract(cells[2], crate)
}

waits_for != "" && $0 != "## " waits_for { next }
waits_for != "" { waits_for = "" }
{ look_at_links($0) }
/^    / { next }
/^## / {
    section = substr($0, 4)
    if (!(section in is_crate))
        section = ""
}
/^\|/ {
    line = $0
    sub(/^\| */, "", line)
    sub(/ *\|$/, "", line)
    count_of_cells = split(line, cells, / +\| +/)
    if (!in_table)
        header = line
    in_table = 1
    if (line ~ /^-/ || line == header)
        next
    if (header ~ /^Claim \| Contract/) {
        look_at_claim()
    } else if (header ~ /^Crate \| Public functions that may wait/) {
        gsub("`", "", cells[1])
        look_at_contract(cells[2], cells[1])
        look_at_mentions(cells[3], "")
    } else if (header ~ /^Crate \| Tests/) {
        gsub("`", "", cells[1])
        look_at_tests(cells[2], cells[1])
    } else if (header ~ /^Edit \|/) {
        look_at_edit()
    } else if (header ~ /\| Where$/) {
        look_at_row_with_files(count_of_cells)
    } else {
        look_at_mentions(line, "")
    }
    next
}
{ in_table = 0; look_at_mentions($0, "") }

END {
    if (PAGE ~ /PROMISES/) {
        for (file in opens)
            look_at_files(opens[file], file)
        for (crate_and_function in public) {
            split(crate_and_function, parts, "\t")
            type = parts[2]
            sub(/::.*$/, "", type)
            if (type == "laws" || (parts[1], type) in is_exported)
                look_at_files(rests[parts[1], parts[2]], parts[2])
        }
    }
    if (has_edits)
        for (edit in edits)
            if (edit ~ /\/(definition|law)_/)
                look(0, edit, "in the table of the edits")
    print looked
}
