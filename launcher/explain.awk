# Says what may stand where the program refused its input, which is read here line by line. Handed in are the
# word of the program that was asked, as `command`; the program's line, as `text`; and the file of sentences.

function load(file, line, at) {
    while ((getline line < file) > 0) {
        at = index(line, "|")
        sentence[substr(line, 1, at - 1)] = substr(line, at + 1)
    }
}

# the sentence with its parts filled in: parts are "NAME=VALUE" with bytes 1 between
function say(key, parts, list, count, k, at, said, mark) {
    said = sentence[key]
    count = split(parts, list, "\001")
    for (k = 1; k <= count; k++) {
        at = index(list[k], "=")
        mark = "{" substr(list[k], 1, at - 1) "}"
        while ((place_of = index(said, mark)) > 0)
            said = substr(said, 1, place_of - 1) substr(list[k], at + 1) substr(said, place_of + length(mark))
    }
    print "flr: " said
}

function words_of(line, list) {
    sub(/^ +/, "", line)
    sub(/ +$/, "", line)
    return line == "" ? 0 : split(line, list, / +/)
}

# sets `column` and `width` to where the word of this place stands in the line
function find(line, place, k, begin) {
    begin = 1
    for (k = 1; k <= place; k++) {
        if (!match(substr(line, begin), /[^ ]+/)) return 0
        column = begin + RSTART - 1
        width = RLENGTH
        begin = column + width
    }
    return 1
}

# the line at fault, cut where it is long, with a mark under what is at fault
function show(number, line, from, shown, k, under) {
    from = column > 60 ? column - 40 : 1
    shown = substr(line, from, 100)
    gsub(/[^ -~]/, "?", shown)
    print "flr: line " number ": " (from > 1 ? ".." : "") shown (length(line) > from + 99 ? ".." : "")
    if (!width) return
    under = sprintf("%" (length("flr: line " number ": ") + (from > 1 ? 2 : 0) + column - from) "s", "")
    for (k = 0; k < width && k < 100 - (column - from); k++) under = under "^"
    print under
}

# ---- forms

function form_of(list, first) {
    first = list[1]
    if (first == "flr-script") return "flr-script V"
    if (first == "targets") return "targets T"
    if (first == "mirrors") return "mirrors M"
    if (first == "fail") return version == 1 ? "fail TARGET CALL KIND" : "fail TARGET FIRST LAST KIND"
    if (first == "client") return "client C"
    if (first == "read") return "read NAME OFFSET LENGTH"
    if (first == "write") return "write NAME OFFSET RUNS"
    if (first == "truncate") return "truncate NAME SIZE"
    if (first == "evict") return "evict C"
    if (first == "rot") return "rot T.N OFFSET HH"
    if (first == "lfs") return lfs_form(list[2], list[3])
    return ""
}

function lfs_form(second, third) {
    if (second == "setstripe" && third == "--comp-set") return "lfs setstripe --comp-set -I ID --comp-flags=FLAGS FILE"
    if (second == "setstripe") return "lfs setstripe [-E END] [-S SIZE] [-c COUNT] FILE"
    if (second == "getstripe") return "lfs getstripe FILE"
    if (second != "mirror") return "lfs setstripe .., lfs getstripe .. or lfs mirror .."
    if (third == "create") return "lfs mirror create -N [--flags=prefer] [-E END] [-S SIZE] [-c COUNT] FILE"
    if (third == "extend") return "lfs mirror extend -N [--flags=prefer] [-E END] [-S SIZE] [-c COUNT] FILE, or -N -f VICTIM FILE"
    if (third == "split") return "lfs mirror split --mirror-id ID [-d] [-f NEW] FILE"
    if (third == "delete") return "lfs mirror delete --mirror-id ID FILE"
    if (third == "resync") return "lfs mirror resync [--only IDS] FILE"
    if (third == "verify") return "lfs mirror verify FILE"
    return "lfs mirror create, extend, split, delete, resync or verify"
}

# ---- causes with a word

function not_text(line, number, at, byte) {
    at = match(line, /[^ -~]/)
    column = at
    width = 1
    if (number == 1 && substr(line, 1, 3) == "\357\273\277") { width = 3; show(number, line); say("byte-order-mark"); return }
    if (substr(line, at, 2) == "\302\240") { width = 2; show(number, line); say("no-break-space"); return }
    if (substr(line, at, 2) == "\342\200") { width = 3; show(number, line); say("long-dash"); return }
    show(number, line)
    byte = substr(line, at, 1)
    if (byte == "\r") say("carriage-return")
    else if (byte == "\t") say("tab")
    else say("other-byte", "HH=" hex(byte))
}

function hex(byte, k) {
    for (k = 0; k < 256; k++) if (sprintf("%c", k) == byte) return sprintf("%02x", k)
    return "00"
}

function misplaced(first) {
    if (first == "schedule" && command != "replay") say("schedule-line", "COMMAND=" command)
    else if (schedule_at && wanted > schedule_at) say("behind-schedule")
    else if (lines_said == 1) say("first-line")
    else if (lines_said == 2) say("targets-line")
    else if (lines_said == 3 && version == 2) say("mirrors-line")
    else if (first == "flr-script" || first == "targets" || first == "mirrors") say("head-line")
    else if (first == "fail") say("fail-line")
    else if (first == "client") say("client-line", "N=" (clients_before + 1))
    else say("before-client")
}

function unknown_word(list, place, word, first, before) {
    word = list[place]
    first = list[1]
    before = list[place - 1]
    if (place == 1 && schedule_at && wanted > schedule_at) say("behind-schedule")
    else if (place == 1 && word == "mirrors") say("mirrors-in-1")
    else if (place == 1 && lines_said == 1) say("first-line")
    else if (tolower(word) != word && first != "fail" && word !~ /^-/ && word !~ /^\//) say("lower-case", "WORD=" tolower(word))
    else if (place == 1) say("unknown-line")
    else if (first == "fail") say("kind")
    else if (place == 2) say("lfs-words")
    else if (place == 3 && list[2] == "mirror") say("mirror-words")
    else unknown_option(list, place, word, before)
}

function unknown_option(list, place, word, before, equals) {
    equals = index(word, "=")
    if (word ~ /^--mirror-count/) say("mirror-count")
    else if (word ~ /^--(stripe-count|count)/) say("stripe-count")
    else if (word ~ /^--(stripe-size|size)/) say("stripe-size")
    else if (word ~ /^--(component-end|comp-end)/) say("part-end")
    else if (word ~ /^--(component-id|comp-id)/) say("component-id")
    else if (word == "--comp-flags" || word == "--flags") say("value-within", "OPTION=" word)
    else if (word == "--destroy") say("destroy")
    else if (word ~ /^(-[piov]|--pool|--stripe-index|--ost|--no-verify|--verbose|--component-add|--component-del|--extension-size|-z|-L|--layout)/ && list[3] != "resync") say("left-out")
    else if (word ~ /^-[ISEcf]./) say("value-apart", "OPTION=" substr(word, 1, 2) "\001VALUE=" value_of(word))
    else if (word ~ /^--comp-flags=/) say("flags")
    else if (word ~ /^--flags/) say("prefer")
    else if (list[3] == "resync" && word ~ /^(-o|--only|--mirror-id)/) say("only")
    else if (before ~ /^(-S|-I|-f|--mirror-id|--only)$/ && word ~ /^-/) say("value-dash", "OPTION=" before)
    else if (word !~ /^-/ && (list[3] == "split" || list[3] == "delete")) say("needs-mirror")
    else if (word !~ /^-/ && list[2] == "setstripe") say("needs-component")
    else say("option", "FORM=" form_of(list))
}

function value_of(word) {
    word = substr(word, 3)
    sub(/^=/, "", word)
    return word
}

function bad_number(list, place, word, first) {
    word = list[place]
    first = list[1]
    if (first == "lfs") bad_lfs_number(word, list[place - 1])
    else if (first == "schedule") say("run")
    else if (first == "flr-script") say("version")
    else if (first == "targets") say("targets")
    else if (first == "mirrors") say("mirrors")
    else if (first == "client") say("client")
    else if (first == "evict") say("evict", "N=" clients)
    else if (first == "rot" && place == 2) say("object")
    else if (word !~ /^(0|[1-9][0-9]*)$/) say("number")
    else if (first == "fail") say(place == 2 ? "target" : place == 3 ? "call" : "last-call", "T=" (targets - 1))
    else if (first == "read") say(place == 3 ? "read-offset" : "length")
    else if (first == "write") say("far-offset")
    else if (first == "truncate") say("size")
    else if (first == "rot") say("rot-offset")
}

function bad_lfs_number(word, before) {
    if (word ~ /^-N/) say("count-of-mirrors", "M=" most())
    else if (word ~ /^--mirror-id=/ || before == "--mirror-id") say("mirror-number")
    else if (word ~ /^--only=/ || before == "--only") say("mirror-numbers")
    else if (before == "-S") say("size-number")
    else if (before == "-c") say("count-number")
    else if (before == "-E") say("end-number")
    else if (before == "-I") say("component-number")
    else say("number")
}

function most() { return version == 1 || !mirrors ? 16 : mirrors }

function bad_name(list, place, word) {
    word = list[place]
    if (list[1] == "lfs" && list[place - 1] == "-N" && word ~ /^[0-9]+$/) say("count-apart", "VALUE=" word)
    else if (word ~ /^[A-Za-z0-9._~\/-]+$/ && word !~ /^[\/-]/) say("name-slash", "WORD=" word)
    else say("name")
}

function bad_bytes(list, place, word) {
    word = list[place]
    if (list[1] == "rot") say("byte")
    else if (word == "-") say("runs-none")
    else if (word ~ /^([0-9a-f][0-9a-f]\*[1-9][0-9]*)(\+[0-9a-f][0-9a-f]\*[1-9][0-9]*)*$/) say(is_alike(word) ? "runs-alike" : "runs-many")
    else if (tolower(word) ~ /^([0-9a-f][0-9a-f]\*[1-9][0-9]*)(\+[0-9a-f][0-9a-f]\*[1-9][0-9]*)*$/) say("runs-upper")
    else say("runs")
}

function is_alike(word, list, count, k) {
    count = split(word, list, /\+/)
    for (k = 2; k <= count; k++) if (substr(list[k], 1, 2) == substr(list[k - 1], 1, 2)) return 1
    return 0
}

function conflict(list) {
    if (list[3] == "split") say("split-conflict")
    else if (is_among(list, "-f")) say("victim-conflict")
    else say("end-conflict")
}

function is_among(list, word, k) {
    for (k in list) if (list[k] == word) return 1
    return 0
}

# ---- a line of the script or the schedule

function explain_line(number, cause, line, list, count, place) {
    line = number == wanted_line_number ? wanted_line : ""
    count = words_of(line, list)
    place = cause ~ / [0-9]+$/ ? cause : 0
    sub(/.* /, "", place)
    place += 0
    if (cause ~ /^(unaligned|gap) /) place = 0
    if (cause == "not text") { not_text(line, number); return }
    if (cause == "missing word" && !count) { say("missing-client"); return }
    column = width = 0
    if (cause == "misplaced") find(line, 1)
    else if (cause == "missing word" || cause == "no newline") { column = length(line) + 1; width = 1 }
    else if (place) find(line, place)
    show(number, line)
    if (cause == "no newline") say("no-newline")
    else if (cause == "misplaced") misplaced(list[1])
    else if (cause == "missing word") say("form", "FORM=" form_of(list))
    else if (cause ~ /^extra word/) say("extra-word", "FORM=" form_of(list))
    else if (cause ~ /^unknown word/) unknown_word(list, place)
    else if (cause ~ /^bad number/) bad_number(list, place)
    else if (cause ~ /^bad name/) bad_name(list, place)
    else if (cause ~ /^bad bytes/) bad_bytes(list, place)
    else if (cause ~ /^repeated/) say(list[1] == "fail" ? "call-repeated" : "repeated")
    else if (cause ~ /^conflict/) conflict(list)
    else if (cause == "same file") say("same-file")
    else if (cause == "no mirror") say("no-mirror")
    else if (cause == "too many mirrors") say("many-mirrors", "M=" most())
    else if (cause == "too many parts") say("many-parts")
    else if (cause ~ /^unaligned/) say("unaligned")
    else if (cause ~ /^gap/) say("gap")
}

# ---- the schedule

# the run of the schedule in which this place lies is marked; `steps` is how many the client has made before it
function find_place(place, client, list, count, k, at, half, all) {
    count = words_of(schedule_line, list)
    steps = 0
    for (k = 2; k <= count; k++) {
        at = split(list[k], half, /\*/)
        at = at == 2 ? half[2] + 0 : 1
        if (all + at >= place) {
            if (half[1] == client) steps += place - all - 1
            find(schedule_line, k)
            return
        }
        all += at
        if (half[1] == client) steps += at
    }
}

function explain_schedule(said, place, client) {
    split(said, part, / /)
    if (part[1] == "client") { say("too-early", "C=" part[2]); return }
    place = part[2] + 0
    client = part[4]
    find_place(place, client)
    show(schedule_at, schedule_line)
    if (part[5] == "unknown") say("unknown-client", "N=" clients)
    else if (part[5] == "finished") say("finished", "C=" client "\001STEPS=" steps)
    else say("blocked", "H=" part[7])
}

BEGIN {
    load(sentences)
    if (text ~ /^flr: script: line [0-9]+: /) {
        wanted = text
        sub(/^flr: script: line /, "", wanted)
        cause = wanted
        sub(/:.*/, "", wanted)
        sub(/^[0-9]+: /, "", cause)
        wanted += 0
    }
}

# what the lines say, up to the one at fault
{
    if (NR == wanted) { wanted_line = $0; wanted_line_number = NR }
    first = $0
    sub(/^ +/, "", first)
    sub(/ .*/, "", first)
    if (first == "" || first ~ /^#/) next
    if (!schedule_at && first == "schedule") { schedule_at = NR; schedule_line = $0 }
    if (first == "client" && !schedule_at) clients++
    if (wanted && NR > wanted) next
    lines_said++
    if (first == "client" && NR < wanted) clients_before++
    split($0, here, / +/)
    if (first == "flr-script") version = here[2] + 0
    if (first == "targets") targets = here[2] + 0
    if (first == "mirrors") mirrors = here[2] + 0
}

END {
    if (wanted) explain_line(wanted, cause)
    else if (text == "flr: script: too many work") say("too-much-work")
    else if (text ~ /^flr: script: too many /) { sub(/.* /, "", text); say("too-many-" text) }
    else if (text == "flr: script: too long") say("too-long")
    else if (text == "flr: script: no schedule") say("no-schedule")
    else if (text ~ /^flr: schedule: /) { sub(/^flr: schedule: /, "", text); gsub(/:/, "", text); explain_schedule(text) }
}
