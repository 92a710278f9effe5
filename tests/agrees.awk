# Whether the text of a board is as wanted, whatever the order between its crews:
#
#   awk -f tests/agrees.awk WANTED GOT
#
# It is where these hold, else the first line that differs is printed, and the status is 1:
#   - the lines up to the opening margin are those of WANTED, and so is the number of entries;
#   - each crew's requests are those of WANTED, in their order, and where WANTED says E1 or E5, so does GOT: these
#     replies do not hang on what other crews did;
#   - each other reply is the one that the entries before it call for, by the cut sets printed above;
#   - what is out at the end, with its holders, and what is left of each cut set is what the log leaves. The lines of
#     units that are out may stand in any order.

# The next name or word of `rest`.
function word(   found) {
    if (!match(rest, /^"[^"]*"/)) match(rest, /^[^ :]*/)
    found = substr(rest, 1, RLENGTH)
    rest = substr(rest, RLENGTH + 1)
    sub(/^ /, "", rest)
    return found
}

# Reads an entry: its number, crew, kind, names and reply.
function entry(line) {
    rest = line
    number = word(); crew = word(); kind = word()
    names = 0
    while (rest != "" && rest !~ /^:/) name[++names] = word()
    request = substr(line, length(number) + 2)
    request = substr(request, 1, length(request) - length(rest))
    reply = substr(rest, 3)
}

function wrong(why) {
    if (!failed) printf "line %d: %s\n", FNR, why
    failed = 1
    exit 1
}

function left(k,   i, kept) {
    for (i = 1; i <= size[k]; i++) kept += !((member[k, i] in held) || (member[k, i] in asked))
    return kept + 0
}

# The first cut set that keeps at most so many, or 0.
function tight(most,   k) {
    for (k = 1; k <= cuts; k++) if (left(k) <= most) return k
    return 0
}

function decided(   i, k) {
    split("", asked)
    if (kind == "margin") {
        if (crew != "supervisor") return "E5 not supervisor"
        k = tight(name[1])
        if (k) return "denied, cut " k
        margin = name[1]; changed = 1
        return "granted"
    }
    if (kind == "return") {
        if (!(name[1] in held)) return "E3 not out"
        if (held[name[1]] != crew) return "E4 held by " held[name[1]]
        delete held[name[1]]
        return "granted"
    }
    for (i = 1; i <= names; i++) if (name[i] in held) return "E2 already out with " held[name[i]]
    for (i = 1; i <= names; i++) asked[name[i]]
    k = tight(margin)
    split("", asked)
    if (k) return "denied, cut " k
    for (i = 1; i <= names; i++) held[name[i]] = crew
    return "granted"
}

FNR == 1 { file++; part = "head" }

part == "head" {
    if (file == 1) head[FNR] = $0
    else if ($0 != head[FNR]) wrong("wanted: " head[FNR])
    if (file == 2 && /^cut [0-9]+: /) {
        rest = $0
        sub(/^cut [0-9]+: /, "", rest)
        for (cuts++; rest != ""; ) member[cuts, ++size[cuts]] = word()
    }
    if (/^margin: /) margin = $2
    if (/^log: /) { part = $2 > 0 ? "log" : "end"; todo = $2; out = "" }
    next
}

part == "log" && file == 1 {
    entry($0)
    wanted[crew, ++asks[crew]] = request
    if (reply ~ /^E[15] /) fixed[crew, asks[crew]] = reply
    if (!--todo) part = "end"
    next
}

part == "log" {
    entry($0)
    place = ++seen[crew]
    if (number != ++entries) wrong("entry " entries " is wanted")
    if (request != wanted[crew, place]) wrong("wanted of this crew: " wanted[crew, place])
    due = (crew, place) in fixed ? fixed[crew, place] : decided()
    if (reply != due) wrong("the reply should be: " due)
    if (!--todo) part = "end"
    next
}

file == 1 { next }

/^margin now: / && part == "end" && out == "" {
    if (!changed || $3 != margin) wrong("the margin at the end is " margin)
    told = 1
    next
}

/^out: / && part == "end" && out == "" {
    if (changed && !told) wrong("the margin at the end is missing")
    for (unit in held) out++
    if ($2 != out + 0) wrong("out at the end: " out + 0)
    part = "out"; todo = out + 0
    next
}

part == "out" && todo > 0 {
    rest = $0
    unit = word()
    if (!(unit in held) || held[unit] != rest || (unit in met)) wrong("this unit is not out with this crew")
    met[unit]
    todo--
    next
}

part == "out" {
    lefts++
    if ($0 != "left " lefts ": " left(lefts) " of " size[lefts]) wrong("left of this cut set: " left(lefts))
    next
}

{ wrong("no line is wanted here") }

END {
    if (!failed && (file != 2 || part != "out" || todo || lefts + 0 != cuts + 0)) {
        print "the text ends too early"
        failed = 1
    }
    exit failed
}
