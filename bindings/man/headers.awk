# Completes the manual of the calls from the headers: awk -f headers.awk HEADER.. PAGE. In the page it replaces
#     @CALLS PATTERN@     by the declarations of the calls whose names match
#     @WORDS PATTERN@     by each of these calls with the comment above it
#     @PRESETS@           by each call of recommended settings, with its comment
#     @FIELDS TYPE@       by the fields of a type, with the comment before each
#     @TYPE NAME@         by a type's definition, without comments
#     @ERRORS@            by each number of an error, with its comment

# A comment, without its marks.
function words_of(comment)
{
    gsub(/^ *(\/\*|\*)? ?| *\*\/$/, "", comment)
    gsub(/ - /, " \\- ", comment)
    return comment
}

# A line of a declaration, with its parameters in italics.
function marked(line,  out)
{
    for (out = ".BI \""; match(line, /[ *][a-z_]+[],)[]/); line = substr(line, RSTART + RLENGTH - 1))
        out = out substr(line, 1, RSTART) "\" " substr(line, RSTART + 1, RLENGTH - 2) " \""
    return out line "\""
}

# Prints a declaration in lines of 80 characters, each length beside its pointer.
function print_call(text,  parts, count, i, line)
{
    gsub(/, size_t [a-z]*_len/, "@&", text)
    gsub(/@,/, "@", text)
    count = split(text, parts, /, */)
    for (i = 1; i <= count; i++) {
        gsub(/@/, ",", parts[i])
        if (i > 1 && length(line ", " parts[i]) > 79) {
            print marked(line ",")
            line = "    " parts[i]
        } else {
            line = i == 1 ? parts[i] : line ", " parts[i]
        }
    }
    print marked(line)
}

/^@CALLS / {
    for (i = 1; i <= calls; i++)
        if (substr(names[i], 15) ~ "^(" substr($2, 1, length($2) - 1) ")$")
            print_call(declared[names[i]])
    next
}
/^@WORDS / {
    for (i = 1; i <= calls; i++)
        if (substr(names[i], 15) ~ "^(" substr($2, 1, length($2) - 1) ")$") {
            if (words)
                printf "%s", (above[names[i]] ? words ".TP\n" : ".TQ\n")
            printf "%s.BR %s ()\n", (words ? "" : ".TP\n"), names[i]
            if (above[names[i]])
                words = above[names[i]]
        }
    printf "%s", words
    words = ""
    next
}
/^@PRESETS@/ {
    for (i = 1; i <= calls; i++)
        if (declared[names[i]] ~ /^proved_argon2_settings /)
            print ".TP\n.BR " names[i] " ()\nreturns settings: " of_call[names[i]] "."
    next
}
/^@FIELDS / { printf "%s", fields[substr($2, 1, length($2) - 1)]; next }
/^@TYPE / { printf ".EX\n%s.EE\n", types[substr($2, 1, length($2) - 1)]; next }
/^@ERRORS@/ { printf "%s", errors; next }
FILENAME !~ /\.h$/ { print; next }

/^\/\*/ { comment = ""; in_comment = 1 }
in_comment {
    line = words_of($0)
    if (line || !/^ \*$/)
        comment = comment (line ? line "\n" : "")
    else
        comment = comment ".IP\n"
    in_comment = !/\*\/$/
}
/^$/ { comment = "" }

/^(const char \*|[a-z][a-z0-9_]* )proved_argon2_[a-z0-9_]*\(/ {
    match($0, /proved_argon2_[a-z0-9_]*\(/)
    name = substr($0, RSTART, RLENGTH - 1)
    names[++calls] = name
    above[name] = comment
    comment = ""
    call = ""
}
name {
    of_call[name] = words_of(substr($0, index($0 "/*", "/*")))
    sub(/ *\/\*.*/, "")
    sub(/^ */, call ~ /[(]$|^$/ ? "" : " ")
    call = call $0
    if (/;$/) {
        declared[name] = call
        name = ""
    }
}
/^typedef / { type = $0; sub(/.* (int )?proved_argon2_/, "", type); sub(/[ (].*/, "", type) }
type {
    if (/^ *(\/\*|\*)/ && !/ by [^ ]*presets \*\/|\/\* end/) {
        before = (/^ *\/\*/ ? "" : before " ") words_of($0)
    } else if (!/\/\*/ || /;/) {
        sub(/ *\/\*.*/, "")
        types[type] = types[type] $0 "\n"
        if (match($0, /[a-z_]+;$/))
            fields[type] = fields[type] ".TP\n.I " substr($0, RSTART, RLENGTH - 1) "\n" before "\n"
    }
    if (/^}|^typedef .*;$/)
        type = ""
}
/^enum / { is_of_errors = /_code/ }
is_of_errors && /^    PROVED_ARGON2_[A-Z0-9_]* = [0-9]+, *\/\*/ {
    errors = errors ".TP\n.BR " $1 " \" (" $3 + 0 ")\"\n" words_of(substr($0, index($0, "/*"))) "\n"
}
