# What stands in the files of the crates, a fact a line, with tabs between its parts:
#   fn CRATE FUNCTION, where a method is TYPE::NAME and a law laws::NAME, and public CRATE FUNCTION if it is `pub`
#   clause CRATE FUNCTION NAME
#   cites CRATE FUNCTION NAME, of what a contract cites, and rests CRATE FUNCTION FILE, of the file with its definition
#   type CRATE NAME, definition CRATE NAME, and field DEFINITION NAME
#   body DEFINITION DEFINITION, of which the first cites the second
#   private FILE, and opens FILE FILE, of which the second has definitions: the first is promised, or of another crate,
#     and takes names from it
#   exported CRATE NAME, of a type or a function that the crate gives out
#   word FILE WORD
#   tested CRATE CRATE, of which the second has the tests of the first
BEGIN { OFS = "\t" }

FNR == 1 {
    split(FILENAME, parts, "/")
    crate = parts[2]
    folder = parts[3]
    type = func_name = definition = ""
    in_head = in_contract = in_record = 0
    split("", import)
    if (folder == "specs" && /^-- Private/)
        print "private", FILENAME
    is_promised = folder == "specs" && /^-- Promised/
}

# The words of this line, into `words`; their number.
function words_of(line) {
    gsub(/[^A-Za-z0-9_-]+/, " ", line)
    return split(line, words, " ")
}

# The type that an impl is of, without its parameters.
function type_of(line,  depth, i, c) {
    sub(/^impl/, "", line)
    if (line ~ /^</) {
        for (i = 1; i <= length(line); i++) {
            c = substr(line, i, 1)
            depth += (c == "<") - (c == ">")
            if (depth == 0)
                break
        }
        line = substr(line, i + 1)
    }
    sub(/^.* for /, "", line)
    gsub(/^ *(&(mut )?)?/, "", line)
    sub(/[^A-Za-z0-9_].*$/, "", line)
    return line
}

/^\/\/! Tests of `/ && crate ~ /^test_/ {
    count = split($0, parts, "`")
    for (i = 2; i <= count; i += 2)
        print "tested", parts[i], crate
}

{
    count = words_of($0)
    for (i = 1; i <= count; i++)
        if (!((FILENAME, words[i]) in seen)) {
            seen[FILENAME, words[i]]
            print "word", FILENAME, words[i]
        }
}

# The files of definitions that this one takes names from, and those names.
/^ *(ghost |pub )?use Rattle\.[a-z_]+\.specs\.[A-Z]/ {
    line = $0
    sub(/^.*Rattle\./, "", line)
    split(line, parts, /[.]/)
    file = "crates/" parts[1] "/specs/" parts[3] ".antt"
    if (is_promised || parts[1] != crate)
        print "opens", FILENAME, file
    sub(/^[^{]*/, "", line)
    count = words_of(line)
    for (i = 1; i <= count; i++)
        import[words[i]] = file
    count = words_of($0)
}

folder == "src" && /^pub use / { is_list = 1 }
folder == "src" && is_list {
    for (i = 1; i <= count; i++)
        print "exported", crate, words[i]
    if (/;/)
        is_list = 0
}
FILENAME ~ /\/src\/lib\.rt$/ && /^pub (struct|enum|trait|fn) / { print "exported", crate, words[3] }

folder == "src" && /^}/ { type = "" }
folder == "src" && /^impl/ { type = type_of($0) }
folder == "src" && /^(pub(\([a-z]+\))? )?(struct|enum|trait|type) / {
    line = $0
    sub(/^.*(struct|enum|trait|type) /, "", line)
    sub(/[^A-Za-z0-9_].*$/, "", line)
    print "type", crate, line
    if ($0 ~ /trait /)
        type = line
}
folder == "src" && /^ *(pub(\([a-z]+\))? )?(const |unsafe )?(extern "C" )?fn [a-z]/ {
    line = $0
    sub(/^.*fn /, "", line)
    sub(/[^A-Za-z0-9_].*$/, "", line)
    if (type != "")
        line = type "::" line
    else if (FILENAME ~ /\/laws\.rt$/)
        line = "laws::" line
    func_name = line
    in_contract = 0
    in_head = 1
    print "fn", crate, func_name
    if ($1 == "pub")
        print "public", crate, func_name
    if (/extern "C"/)
        print "exported", crate, func_name
}
# Closures in a body have contracts of their own.
folder == "src" && in_head && /^ *(requires|ensures)[*]?( [a-z0-9_]+)? \{/ {
    in_contract = 1
    if ($2 != "{")
        print "clause", crate, func_name, $2
}
folder == "src" && (/^ *\{\}?$/ || !in_contract && /\{$/) { in_contract = in_head = 0 }
folder == "src" && in_contract {
    for (i = 1; i <= count; i++) {
        if (words[i] ~ /^[A-Z]/)
            print "cites", crate, func_name, words[i]
        if (words[i] in import)
            print "rests", crate, func_name, import[words[i]]
    }
}

folder == "specs" && /^( *)(abbrev |pub |record |data )/ && !(in_record && match($0, /^ */) && RLENGTH > indent) {
    line = $0
    while (line ~ /^ *(abbrev|pub|record|data) /)
        sub(/^ *(abbrev|pub|record|data) /, "", line)
    sub(/[^A-Za-z0-9_-].*$/, "", line)
    definition = line
    in_record = $0 ~ /record /
    match($0, /^ */)
    indent = RLENGTH
    print "definition", crate, definition
}
folder == "specs" && in_record && /^ +pub [a-z0-9_]+ :/ { print "field", definition, $2 }
folder == "specs" && definition != "" && !/^ *(--|use )/ {
    for (i = 1; i <= count; i++)
        if (words[i] ~ /^[A-Z]/ && words[i] != definition)
            print "body", definition, words[i]
}
