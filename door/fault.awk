# Tells a person what is wrong with a script: where, which line, and what is expected there.
# FAULT is the answer of txid_tool, `script LINE KIND`, and INPUT what the script is called. The kinds, and the order in
# which they are tested, are those of docs/SCRIPT-AND-REPORT.md: so before the fault's line, and in it before the fault,
# all is well.

BEGIN {
    # what each command, behind its session's name, and each directive looks like
    split("begin,save,write,release,undo,commit,abort,snap NAME,drop NAME,see NAME ID,seemulti NAME MULTIXACT,status ID,did ID," \
          "horizon,freeze ID,multi ID:MODE ..,multifreeze MULTIXACT,trim", runs, ",")
    split(".start ID,.oldest ID,.multi MULTIXACT,.offset OFFSET,.oldest-multi MULTIXACT,.oldest-offset OFFSET,.banks COUNT", heads, ",")
    split(".round,.checkpoint,.crash HOW,.dump STORE PAGE AT LENGTH", steps, ",")
    commands = "begin, save, write, release, undo, commit, abort, snap, drop, see, seemulti, status, did, horizon, freeze, " \
               "multi, multifreeze and trim"
    directives = ".start, .oldest, .multi, .offset, .oldest-multi, .oldest-offset and .banks, before all commands, " \
                 ".round, .checkpoint, .crash and .dump"
    learn(runs, form)
    learn(heads, head); learn(steps, step)
    form_of_log = ".dump log AT LENGTH"

    # what a person who thinks in SQL may write
    split("start begin,transaction begin,savepoint save,insert write,update write,delete write,rollback abort,end commit," \
          "snapshot snap,visible see,select see,close drop", pairs, ",")
    for (i in pairs) { split(pairs[i], pair, " "); sql[pair[1]] = pair[2] }

    word_u32 = "a number from 0 to 4294967295"
    word_full = "an id in full: from 3 to 4611686018427387904, its low 32 bits at least 3"
    word_multi = "a multixact in full: from 1 to 4611686018427387904, its low 32 bits not 0"
    expected["see"] = expected["did"] = expected["multi"] = word_u32
    expected["seemulti"] = "a number from 1 to 4294967295"
    expected["status"] = "0, 1, 2 or " word_full
    expected["freeze"] = expected[".start"] = expected[".oldest"] = word_full
    expected["multifreeze"] = expected[".multi"] = expected[".oldest-multi"] = word_multi
    expected[".offset"] = expected[".oldest-offset"] = "a number from 1 to 4611686018427387904"
    expected[".banks"] = "a number from 1 to 16"
    expected[".dump"] = "PAGE from 0 to 4294967295, LENGTH from 1 to 64, and AT + LENGTH at most 8192"
    expected["log"] = "AT from 0 to 1099511627776, and LENGTH from 1 to 64"

    for (i = 0; i < 256; i++) code[sprintf("%c", i)] = i
    input = ENVIRON["INPUT"]
    split(ENVIRON["FAULT"], said, " ")
    at = said[2]; kind = said[3]
    if (kind == "size") {
        print input ": this is longer than a script may be, which is 16777216 bytes"
        exit
    }
    if (at !~ /^[1-9][0-9]*$/) {
        print input ": this is not a script: docs/SCRIPT-AND-REPORT.md says what one is"
        print "commands are " commands ", each behind the name of a session"
        exit
    }
    at += 0
}

NR < at { remember() }
NR == at { tell(); exit }

# Puts the forms under their first words.
function learn(list, forms,    i, first) {
    for (i in list) {
        first = list[i]
        sub(/ .*/, "", first)
        forms[first] = list[i]
    }
}

# What the lines before the fault have: header lines, sessions, and the first line that is no header.
function remember(    first) {
    sub(/\r$/, "")
    first = $1
    if (first == "" || first ~ /^#/) return
    if (first in head) { line_of[first] = NR; return }
    if (!body) body = NR
    if (first !~ /^[.]/ && !(first in session)) session[first] = 1
}

# Cuts the line into words, each with its place.
function cut(line,    at, rest) {
    words = 0
    at = 1
    rest = line
    while (match(rest, /[^ \t]+/)) {
        word[++words] = substr(rest, RSTART, RLENGTH)
        column[words] = at + RSTART - 1
        at += RSTART + RLENGTH - 1
        rest = substr(rest, RSTART + RLENGTH)
    }
}

function tell(    line, end) {
    line = end = $0
    sub(/\r$/, "", line)
    cut(line)
    first = word[1]
    second = words > 1 ? word[2] : ""
    # the command or directive of this line
    verb = first ~ /^[.]/ ? first : second
    if (kind == "byte") of_byte(end)
    else if (kind == "directive") of_directive()
    else if (kind == "session") of_session()
    else if (kind == "command") of_command()
    else if (kind == "arguments") of_arguments()
    else if (kind == "name") of_name()
    else if (kind == "mode") of_mode()
    else if (kind == "number") of_number()
    else if (kind == "limit") of_limit()
    else if (kind == "base") say("the lines up to here give no counters to begin from", 0, \
        "the oldest id is at most the next one, and that is at most some 2.14 billion past it, and so for multixacts:\n" \
        "docs/IDS-AND-LIMITS.md, Bases")
    else say("this line is at fault (" kind ")", 0, "docs/SCRIPT-AND-REPORT.md says what a script is")
}

# Prints the place, what is wrong, the line with a mark under its word k (where k isn't 0), and what is expected.
function say(what, k, hint) {
    show(what, k ? column[k] : 0, k ? length(word[k]) : 0, hint)
}

function show(what, from, width, hint,    line) {
    line = $0
    sub(/\r$/, "", line)
    gsub(/\t/, " ", line)
    print input ":" NR ": " what
    print "    " clean(substr(line, 1, 100)) (length(line) > 100 ? " .." : "")
    if (from && from + width <= 101) print "    " repeated(" ", from - 1) repeated("^", width)
    if (hint != "") print hint
}

# A word in quotes, cut where it is long. Bytes that aren't printable are shown as question marks.
function quoted(text) { return "\"" clean(length(text) > 40 ? substr(text, 1, 37) ".." : text) "\"" }
function clean(text) { gsub(/[^ -~]/, "?", text); return text }

function repeated(text, count,    all) {
    while (count-- > 0) all = all text
    return all
}

function of_byte(line,    at, bare) {
    # A CR stands right in front of an LF alone: the last line of a script may have none.
    bare = line
    sub(/\r$/, "", bare)
    at = match(bare, /[^ -~\t]/)
    if (!at) at = length(line)
    show(sprintf("byte %d of this line is %02x hex, which no script has", at, code[substr(line, at, 1)]), at, 1, \
        "a script has the characters from space to ~, tabs, and at the end of a line LF or CR LF")
}

function of_directive() {
    if (!(first in head)) say(quoted(first) " is no directive" nearest(first, head, step), 1, \
        "directives are " directives)
    else if (first in line_of) say(quoted(first) " stands in line " line_of[first] " already", 1, "")
    else say(quoted(first) " comes too late: the header ends before line " body, 1, \
        "what a script begins with stands before all commands")
}

function of_session(    small) {
    small = tolower(first)
    say(quoted(first) " is no name of a session" (is_name(small) ? ": did you mean \"" small "\"?" : ""), 1, \
        "a name is 1 to 16 of the letters a to z and the digits, a letter first")
}

function is_name(text) { return text ~ /^[a-z][a-z0-9]*$/ && length(text) <= 16 }

function of_command() {
    if (words == 1 && tolower(first) in form)
        say("a line begins with the name of a session: did you mean \"a " tolower(first) "\"?", 1, "commands are " commands)
    else if (words == 1)
        say("session " quoted(first) " is given no command", 0, "commands are " commands)
    else
        say(quoted(second) " is no command" nearest(second, form), 2, "commands are " commands)
}

function of_arguments(    right, count, wanted) {
    right = verb ~ /^[.]/ ? (verb in head ? head[verb] : step[verb]) : first " " form[verb]
    if (verb == ".dump" && second == "log") right = form_of_log
    count = split(right, wanted, " ")
    if (words > count) say("too many words", count + 1, "expected: " right)
    else say("too few words", 0, "expected: " right)
}

function of_name(    k) {
    k = verb == first ? 2 : 3
    if (verb == ".crash") say(quoted(word[k]) " is no way to crash", k, "ways to crash are lost, kept and torn")
    else if (verb == ".dump") say(quoted(word[k]) " is no store", k, "stores are xact, subtrans, offsets, members and log")
    else say(quoted(word[k]) " is no name", k, "a name is 1 to 16 of the letters a to z and the digits, a letter first")
}

function of_mode(    k, parts) {
    for (k = 3; k < words; k++)
        if (split(word[k], parts, ":") != 2 || parts[2] !~ /^(keysh|sh|fornokeyupd|forupd|nokeyupd|upd)$/) break
    say(quoted(word[k]) " is no member", k, \
        "a member is ID:MODE, and modes are keysh, sh, fornokeyupd, forupd, nokeyupd and upd")
}

function of_number(    k) {
    k = verb ~ /^(see|seemulti)$/ ? 4 : verb == first ? 2 : 3
    if (verb == "multi")
        while (k < words && is_u32(substr(word[k], 1, index(word[k], ":") - 1))) k++
    else if (verb == ".dump" && second == "log") {
        for (k = 3; k < words && is_number(word[k], 1099511627776); k++) continue
        verb = "log"
    } else if (verb == ".dump") {
        k = 3
        if (is_u32(word[3])) k = is_number(word[4], 8192) ? 5 : 4
    }
    say(quoted(word[k]) " is not a number that may stand here", k, "expected: " expected[verb])
}

function is_number(text, most) { return text ~ /^[0-9]+$/ && length(text) <= 20 && text + 0 <= most }
function is_u32(text) { return is_number(text, 4294967295) }

function of_limit() {
    if (first in session) say("session " quoted(first) " has 100000 commands in this round already", 1, \
        "a line .round begins the next round")
    else say(quoted(first) " would be the 65th session", 1, "a script has 64 sessions at most")
}

# Which of the known words a person may have meant, as a question, or nothing.
function nearest(text, some, more,    small, best, least, found) {
    small = tolower(text)
    if (small in sql) return ": did you mean \"" sql[small] "\"?"
    least = int((length(small) < 3 ? 3 : length(small)) / 3)
    for (best in some) if (distance(small, best) <= least) { found = best; least = distance(small, best) - 1 }
    for (best in more) if (distance(small, best) <= least) { found = best; least = distance(small, best) - 1 }
    return found == "" ? "" : ": did you mean \"" found "\"?"
}

# How many letters have to be put in, left out, changed, or exchanged with the next one, to make one word of the other.
function distance(from, to,    i, j, cost, way) {
    if (length(from) > 20) return 20
    for (i = 0; i <= length(from); i++) way[i, 0] = i
    for (j = 0; j <= length(to); j++) way[0, j] = j
    for (i = 1; i <= length(from); i++)
        for (j = 1; j <= length(to); j++) {
            cost = substr(from, i, 1) != substr(to, j, 1)
            way[i, j] = least_of(way[i - 1, j] + 1, way[i, j - 1] + 1, way[i - 1, j - 1] + cost)
            if (i > 1 && j > 1 && substr(from, i, 1) == substr(to, j - 1, 1) && substr(from, i - 1, 1) == substr(to, j, 1))
                way[i, j] = least_of(way[i, j], way[i - 2, j - 2] + 1, way[i, j])
        }
    return way[length(from), length(to)]
}

function least_of(a, b, c) { return a < b ? (a < c ? a : c) : (b < c ? b : c) }
