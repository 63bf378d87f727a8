# Tells which word was meant, why a line of a script is refused, or what an exit status means. ./faultmem calls it in one of these ways:
#
#     asked=WORD awk -f explain.awk -v known="run ea .."
#     awk -f explain.awk -v line=L -v cause=CAUSE -v first=A -v second=B reading=page SCRIPT.md reading=script SCRIPT
#     awk -f explain.awk -v status=N reading=page INSPECT.md
#
# The first prints the nearest of the known words, or nothing. The second prints a line that says what is wrong with line L, and for a
# common slip a line that says how it is mended. What may be written, and the ranges of its numbers, come from the tables of the pages.

# ---- Words.

# How many letters have to be left out, put in, replaced or swapped with the next to make one word of the other.
function distance(a, b, i, j, cost, least, of) {
    for (i = 0; i <= length(a); i++) of[i, 0] = i
    for (j = 0; j <= length(b); j++) of[0, j] = j
    for (i = 1; i <= length(a); i++) for (j = 1; j <= length(b); j++) {
        cost = substr(a, i, 1) != substr(b, j, 1)
        least = of[i - 1, j - 1] + cost
        if (of[i - 1, j] + 1 < least) least = of[i - 1, j] + 1
        if (of[i, j - 1] + 1 < least) least = of[i, j - 1] + 1
        if (i > 1 && j > 1 && substr(a, i - 1, 2) == substr(b, j, 1) substr(b, j - 1, 1) && of[i - 2, j - 2] + 1 < least)
            least = of[i - 2, j - 2] + 1
        of[i, j] = least
    }
    return of[length(a), length(b)]
}

# One word of two letters or more begins the other.
function begins(a, b) {
    return length(a) > 1 && length(b) > 2 && (index(a, b) == 1 || index(b, a) == 1)
}

# The nearest of these words, or nothing where none is near: at most one letter is wrong, or two of a word of five letters or more.
function nearest(word, words, n, i, list, far, least, best) {
    word = tolower(substr(word, 1, 40))
    n = split(words, list, " ")
    least = length(word) < 5 ? 2 : 3
    for (i = 1; i <= n; i++) {
        far = distance(word, list[i])
        if (far > 1 && begins(word, list[i])) far = 1.5
        if (far < least && far < length(word)) {
            least = far
            best = list[i]
        }
    }
    return best
}

function is_number(word) {
    return word ~ /^[0-9]+$/ && length(word) <= 10
}

function is_signed(word) {
    sub(/^-/, "", word)
    return is_number(word)
}

function is_hexadecimal(word, digits) {
    return word ~ /^[0-9A-Fa-f]+$/ && length(word) == digits
}

# A word as it may be shown: a long one is cut.
function shown(word) {
    return length(word) > 40 ? substr(word, 1, 40) ".." : word
}

# ---- The page.

# A cell without its marks.
function plain(cell) {
    gsub(/`/, "", cell)
    gsub(/^ +| +$/, "", cell)
    return cell
}

# The row of a line: for each word that begins one, how it is written. The rows of words without numbers have no range.
function read_line_row(i, n, parts, word) {
    n = split($2, parts, "`")
    for (i = 2; i <= n; i += 2) {
        word = parts[i]
        sub(/ .*/, "", word)
        lines = lines " " word
        if (part ~ /Configuration/) configures[word] = 1
        if (NF == 6 && $3 !~ /see below/) {
            range_of[word] = plain($3)
            row[word] = plain($2) (range_of[word] == "" ? "" : " (" range_of[word] ")") ", as in: " plain($5)
        }
        if (NF == 4) row[word] = word ", with no other word"
    }
}

# The row of a pair of an event line: its word, the letters of its numbers, and their range.
function read_pair_row(cell, word) {
    cell = plain($2)
    word = cell
    sub(/ .*/, "", word)
    pairs = pairs (pairs == "" ? "" : " ") word
    letters_of[word] = substr(cell, length(word) + 2)
    pair_range[word] = plain($3)
}

function read_row(word) {
    if (table == "Line") read_line_row()
    else if (table == "Pair") read_pair_row()
    else if (table == "DID") {
        width[plain($2)] = plain($3)
        dids = dids (dids == "" ? "" : ", ") plain($2)
    } else if (table == "Cause") {
        word = plain($2)
        sub(/ .*/, "", word)
        if (word in rule) return
        rule[word] = plain($3)
        mend[word] = plain($4)
    } else if (table == "Status" && plain($2) == status && meaning == "") meaning = plain($4) ": " plain($3)
}

# ---- The script.

# Splits a line into its words, and returns how many it has.
function split_words(text, into) {
    sub(/\r$/, "", text)
    gsub(/^[ \t]+|[ \t]+$/, "", text)
    return text == "" ? 0 : split(text, into, /[ \t]+/)
}

# What is above the line: how many events, where each word of a configuration first is, and where the first other line is. Of the
# data identifiers those below count too, as their widths are added up in the end.
function read_script_line(n, words) {
    n = split_words($0, words)
    if (FNR == line) {
        count = split_words($0, the)
        return
    }
    if (n == 0 || words[1] ~ /^#/) return
    if (!(words[1] in configures)) {
        if (begun == 0) begun = FNR
        return
    }
    if (words[1] == "did") wide[words[2] + 0] += width[toupper(words[3])]
    if (FNR > line) return
    if (words[1] == "event") events++
    if (!(words[1] in set_at)) set_at[words[1]] = FNR
}

# ---- An event line.

# Where the values of the pair that begins there end.
function end_of_pair(from, i) {
    for (i = from + 1; i <= count && !(the[i] in letters_of); i++) continue
    return i - 1
}

# The words from one place to another.
function text_of(from, to, i, text) {
    for (i = from; i <= to; i++) text = text (i == from ? "" : " ") shown(the[i])
    return text
}

function no_pair(word, near, list) {
    near = nearest(word, pairs)
    list = pairs
    gsub(/ /, ", ", list)
    return shown(word) " is no pair; " (near == "" ? "" : "did you mean " near "? ") "the pairs are " list
}

# Why the word is none of the pair's values, or nothing.
function wrong_value(key, word, range) {
    range = pair_range[key]
    if (letters_of[key] == "H") {
        sub(/ .*/, "", range)
        if (!is_hexadecimal(word, length(range)))
            return key " " shown(word) ": a DTC is " (length(range) == 6 ? "six" : length(range)) " hexadecimal digits, and nothing before them"
    } else if (range ~ /^signed/) {
        if (!is_signed(word)) return key " " shown(word) ": a number has 1 to 10 decimal digits, and may have a - before them"
    } else if (!is_number(word)) return key " " shown(word) ": a number has 1 to 10 decimal digits"
    return ""
}

# What is wrong with the form of an event line: the first word at which something is.
function event_form(i, v, key, last, letters, want, why, stands) {
    if (count < 2 || the[2] in letters_of) return "the number of the event is missing behind the word event"
    if (!is_number(the[2])) return shown(the[2]) " is no number of an event: it has 1 to 10 decimal digits"
    for (i = 3; i <= count; i = last + 1) {
        key = the[i]
        if (!(key in letters_of)) return no_pair(key)
        if (key in stands) return key " stands twice"
        stands[key] = 1
        last = end_of_pair(i)
        want = split(letters_of[key], letters, " ")
        for (v = 1; v <= want && i + v <= last; v++) {
            why = wrong_value(key, the[i + v])
            if (why != "") return why
        }
        if (last - i < want) return text_of(i, last) " lacks " (want == 1 ? "its value" : "values") ": " key " " letters_of[key] ", " pair_range[key]
        if (last - i > want && the[i + want + 1] !~ /^-?[0-9A-F]+$/) return no_pair(the[i + want + 1])
        if (last - i > want) return text_of(i, last) " has too many values: " key " " letters_of[key] ", " pair_range[key]
    }
    if (!("dtc" in stands)) return "dtc is missing, the diagnostic trouble code, as in: event " the[2] " dtc 123456"
    for (key in stands) if ("time" in stands && (key == "count" || key ~ /^jump/)) return "time excludes " key
    return ""
}

# Finds the range of the number with this letter in a cell such as "F 1 to 32767, U and D 1 to 9"; one without letters is that of all.
# It sets least and greatest, and returns whether it found it.
function find_range(cell, letter, n, i, parts, part, letters, words) {
    n = split(cell, parts, ", ")
    for (i = 1; i <= n; i++) {
        part = parts[i]
        letters = ""
        while (match(part, /^([A-Z]|and) /)) {
            letters = letters substr(part, 1, RLENGTH)
            part = substr(part, RLENGTH + 1)
        }
        if (letters != "" && index(letters, letter " ") == 0) continue
        if (split(part, words, " ") >= 3 && (words[2] == "to" || words[2] == "or")) {
            least = words[1]
            greatest = words[3]
            return 1
        }
    }
    return 0
}

# Whether the value is outside the range that was found. Hexadecimal digits of one length are compared as texts.
function is_outside(letter, value) {
    if (letter != "H") return value + 0 < least + 0 || value + 0 > greatest + 0
    value = toupper(value)
    return value "" < least "" || value "" > greatest ""
}

# The pairs of an event line with numbers outside their ranges, or nothing.
function event_range(i, v, key, last, letters, n, number, cell, wrong, why, bytes) {
    number["count F"] = number["count P"] = 1
    for (i = 3; i <= count; i = last + 1) {
        last = end_of_pair(i)
        n = split(letters_of[the[i]], letters, " ")
        for (v = 1; v <= n; v++) number[the[i] " " letters[v]] = the[i + v]
    }
    for (i = 3; i <= count; i = last + 1) {
        key = the[i]
        last = end_of_pair(i)
        cell = pair_range[key]
        n = split(letters_of[key], letters, " ")
        wrong = ""
        for (v = 1; v <= n; v++) {
            if (cell ~ /between -P and F/) {
                least = 1 - number["count P"]
                greatest = number["count F"] - 1
                cell = cell ", so here from " least " to " greatest
            } else if (!find_range(cell, letters[v])) continue
            if (is_outside(letters[v], the[i + v])) wrong = wrong (wrong == "" ? "" : " and ") letters[v]
        }
        if (wrong != "") why = why (why == "" ? "" : "; ") text_of(i, last) ": " wrong (length(wrong) == 1 ? " is outside its range, " : " are outside their ranges, ") cell
    }
    bytes = wide[the[2] + 0]
    if (why == "" && bytes > 32) why = "the widths of its data identifiers add up to " bytes " bytes, and at most 32 are kept"
    return why
}

# ---- Other lines.

function did_form() {
    if (count != 3) return "behind did stand two words, as it is written " row["did"]
    if (!is_number(the[2])) return shown(the[2]) " is no number of an event: it has 1 to 10 decimal digits"
    if (!is_hexadecimal(the[3], 4)) return shown(the[3]) ": a data identifier has four hexadecimal digits, and nothing before them"
    return ""
}

function wrong_order(word) {
    if (begun > 0) return "a configuration line after a step, a power or a par, which line " begun " is"
    if (word == "event") return "the number of the next event is " events + 0 ", and not " shown(the[2])
    if (word == "did") return "event " shown(the[2]) " is not declared above it"
    if (word in set_at) return word " stands already, on line " set_at[word]
    return ""
}

# The events that a step may name.
function events_there() {
    if (events == 0) return "; no event is configured"
    return "; here " (events == 1 ? "only 0" : "0 to " events - 1)
}

# What is wrong with the line, where more can be said than its rule.
function problem(word, why) {
    word = the[1]
    if (word == "event" && cause == "form") why = event_form()
    if (word == "event" && cause == "range") why = event_range()
    if (word == "did" && cause == "form") why = did_form()
    if (cause == "order") why = wrong_order(word)
    if (cause == "did") why = shown(the[3]) " is no data identifier of the table; it has " dids
    if (why == "" && (cause == "form" || cause == "range") && word in row) {
        why = row[word]
        if (range_of[word] ~ /a configured event/) sub(/a configured event/, "&" events_there(), why)
        why = "a line \"" word "\" is written: " why
    }
    return why
}

# The bytes of a word, with spaces between them.
function spaced(word, i, text) {
    for (i = 1; i <= length(word); i += 2) text = text (i == 1 ? "" : " ") substr(word, i, 2)
    return text
}

# How a common slip is mended.
function hint(i, word, first) {
    first = the[1]
    for (i = 1; i <= count; i++) {
        word = the[i]
        if (index(word, "#")) return "a # behind other words begins no comment; put the comment on a line of its own"
        if (word ~ /^-?0[xX]/) return shown(word) ": digits stand without 0x, and numbers are decimal"
        if (i > 2 && (first == "t" || first == "post" || first == "urge") && length(word) > 2 && length(word) < 65 && word ~ /^[0-9A-Fa-f]+$/ && length(word) % 2 == 0)
            return "write a space between two bytes: " spaced(word)
    }
    if (cause == "word" && nearest(first, lines " power") != "") return "did you mean " nearest(first, lines " power") "?"
    return ""
}

BEGIN {
    FS = "|"
    if (known != "") {
        print nearest(ENVIRON["asked"], known)
        done = 1
        exit
    }
}

reading == "page" && /^#/ { part = $0 }

reading == "page" && !/^[|]/ {
    table = ""
    next
}

reading == "page" && table == "" {
    table = plain($2)
    next
}

reading == "page" && $2 !~ /^ *-+ *$/ { read_row() }

reading == "script" && FNR > line && (cause != "range" || begun > 0) { exit }

reading == "script" { read_script_line() }

END {
    if (done) exit
    if (status != "") {
        if (meaning != "") print "faultmem: " meaning
        exit
    }
    row["power"] = "power, with no other word"
    sub(/event B/, "event " second, rule["twice"])
    sub(/event A/, "event " first, rule["twice"])
    sub(/N pages/, first " pages", rule["room"])
    sub(/P are/, second " are", rule["room"])
    why = problem()
    if (why == "" && rule[cause] != "") why = rule[cause] ". To mend it: " mend[cause]
    if (why != "") print "faultmem: " cause ": " why
    why = cause == "form" || cause == "word" ? hint() : ""
    if (why != "") print "faultmem: hint: " why
}
