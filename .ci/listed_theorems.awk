# Holds the files crates/CRATE/proofs/Determined.antt to the public functions, one theorem for each. It is a part of .ci/listed, and reads
# bytes: it needs LC_ALL=C. Its input is first the lines of listed_functions.awk, then, after what=theorems, the files.
# `home` is the crate that says what `Determined` means.
#
# Each line has to be one of the following, whole and to the letter; of any other there is a complaint. LABEL is the author's short name
# for a function, of small letters, digits and _; where it names a module, - may stand for any _. PATH is the function's path, with dots.
#
#  what is shown, brought once, by its own name and from nowhere else (one, two or all three of the names):
#     use Rattle.HOME.specs.Determined.{Determined, DeterminedOf, Says}
#  a function of whose contract the toolchain makes a reading; N is a number:
#     use Rattle.CRATE.proofs.PATH.Kinds as LABEL_kinds
#     use Rattle.CRATE.proofs.PATH.Reads as LABEL_reads
#     LABEL_determined : Determined N LABEL_kinds.ps LABEL_kinds.r LABEL_reads.Post
#     LABEL_determined .. = ..
#  the same where the function is generic: for all that it is generic in, which the contract's reading takes whole, and in that order:
#     LABEL_determined : (A B C D : _) → Determined N (LABEL_kinds.ps A B) (LABEL_kinds.r A B) (LABEL_reads.Post A B C D)
#     LABEL_determined .. = ..
#  a function of whose contract it makes none, since a struct is held or lent; the second line here goes on with the third:
#     use Rattle.CRATE.specs.contracts.PATH as LABEL
#     abbrev LABEL_says : Says LABEL.ended (λ w κs a r s.
#         (LABEL.clauses w.𝓛 w.𝓜.mem w.𝓡.run κs a).ensures tt r s)
#     LABEL_says = record { claim = _; exactly = λ w κs a r s. refl }
#     LABEL_determined : DeterminedOf LABEL.ended LABEL_says.claim
#     LABEL_determined .. = ..
#  what the proofs use: names that change no word of a theorem's own line, and an operator only from the toolchain's libraries:
#     use MODULE.{NAME, NAME}
#     NAME : ..
#     NAME .. = ..
#  more of a proof or of a helper, indented; `unfolding ..` above a proof; a comment from the line's start; an empty line.
# A theorem's proof and a reading's second line follow at once, so that no statement goes on unseen.

function complain(place, text) {
    print "listed: " place ": " text | "cat >&2"
    bad = 1
}

function here(text) { complain(file ":" FNR, text) }
function is_label(text) { return text ~ /^[a-z][a-z0-9_]*$/ && text !~ /_(kinds|reads|says|determined)$/ }
function plain(text) { gsub(/-/, "_", text); return text }
function ends_with(text, end) { return length(text) > length(end) && substr(text, length(text) - length(end) + 1) == end }
function without(text, end) { return substr(text, 1, length(text) - length(end)) }
function is_clause(text, start) { return index(text, start " ") == 1 && text !~ /^[^ ]+ :/ && (text " ") ~ / = / }

# a name that could change what a theorem's line says: the words of that line, operators, libraries
function is_taken(text) {
    return text ~ /^(Determined|DeterminedOf|Says|tt|package)$/ || text ~ /[-_](kinds|reads|says|determined)$/ || text ~ /«|»|·|◌/
}

# words that only a declaration of another form has: they stand nowhere, but for the first word of the accepted lines
function has_keyword(text) {
    return text ~ /(^|[ (;])(module|open|mutual|data|mod|use|pub|abbrev|unfoldable|package)( |$)/ ||
        text ~ /(^|[ (;])(infix|infixl|infixr|deriving|ruleset|syntax|axiom|postulate|private)( |$)/ || text ~ /Axiom/
}

function start_file(    part) {
    file = FILENAME
    split(file, part, "/")
    crate = part[2]
    has_file[crate] = 1
    own = "use Rattle." crate ".proofs."
    contract = "use Rattle." crate ".specs.contracts."
    meaning = "use Rattle." home ".specs.Determined."
    brings = needs = owner = awaited = ""
}

function end_file() {
    if (file == "") return
    if (awaited != "") complain(file, "the file ends where " awaited " has to follow")
    if (needs ~ /Determined / && brings !~ /[{ ]Determined[,}]/) complain(file, "Determined does not come from " home)
    if (needs ~ /DeterminedOf / && (brings !~ /[{ ]DeterminedOf[,}]/ || brings !~ /[{ ]Says[,}]/))
        complain(file, "DeterminedOf and Says do not come from " home)
}

what == "functions" {
    split($0, field, "\t")
    path = field[2]
    gsub(/::/, ".", path)
    total++
    crate_of[total] = field[1]
    name_of[total] = field[2]
    path_of[total] = path
    public[field[1], path] = 1
    next
}

FNR == 1 { end_file(); start_file() }

/\{-|-\}|\t/ { here("a comment {- -} or a tab, which could hide a theorem from the checker or from this script") }
/^$/ || /^--( |$)/ { if (awaited == "") next }
/"|«|»/ { here("a quoted text or name, which could hide what a line says") }
/\?/ { here("a hole, or a name with ?") }
{
    rest = $0
    sub(/^(use|abbrev) /, "", rest)
    if (has_keyword(rest)) here("a declaration of none of the accepted forms")
}

# the line that has to follow a theorem's or a reading's own line: nothing may come between, or the statement could go on there
awaited != "" && owner == "theorem" && /^unfolding [^ ]/ { next }
awaited != "" {
    if (owner == "theorem" ? !is_clause($0, awaited) : $0 != awaited) here("this is where `" awaited " ..` has to follow")
    owner = owner == "theorem" ? "proof" : "done"
    awaited = ""
    next
}

/^ / {
    if (owner != "proof" && owner != "helper") here("an indented line, which could go on with the line above it")
    next
}

/^use / { owner = "use"; read_use($0); next }
/^abbrev [^ ]+_says : / { owner = "says"; read_says($2); next }
/^[^ ]+_determined : / { owner = "theorem"; read_theorem($1); next }
/^unfolding [^ ]/ && owner == "helper" { next }
owner == "proof" && $1 == proved "_determined" && is_clause($0, $1) { next }
{
    owner = "helper"
    helper = $1
    gsub(/'/, "", helper)
    if (helper !~ /^[a-z][a-z0-9_-]*$/ || helper ~ /^(record|unfolding)$/ || is_taken(helper))
        here("a line of none of the accepted forms: it begins with " $1)
    else note_name($1)
}

function note_name(text) {
    names++
    name_text[names] = text
    name_crate[names] = crate
    name_place[names] = file ":" FNR
}

function read_use(text,    rest, word, count, i, list, name) {
    if (index(text, meaning) == 1) {
        rest = substr(text, length(meaning) + 1)
        if (brings != "" || rest !~ /^\{(Determined|DeterminedOf|Says)(, (Determined|DeterminedOf|Says))*\}$/)
            here("Determined, DeterminedOf and Says are brought once, by their own names")
        brings = rest
    } else if ((index(text, own) == 1 || index(text, contract) == 1) && index(text, "{") == 0) {
        count = split(substr(text, length(index(text, own) == 1 ? own : contract) + 1), word, " ")
        name = plain(word[3])
        if (count != 3 || word[2] != "as" || word[1] !~ /^[A-Za-z0-9_.]+$/) here("a use of none of the accepted forms")
        else if (index(text, contract) == 1) bring("whole", name, word[1])
        else if (ends_with(word[1], ".Kinds") && ends_with(name, "_kinds"))
            bring("kinds", without(name, "_kinds"), without(word[1], ".Kinds"))
        else if (ends_with(word[1], ".Reads") && ends_with(name, "_reads"))
            bring("reads", without(name, "_reads"), without(word[1], ".Reads"))
        else here("a use under a name that is no label, or of none of the accepted forms")
    } else if (text ~ /^use [^ {}]+\.\{[^ {},.]+(, [^ {},.]+)*\}$/) {
        list = text
        sub(/^[^{]*\{/, "", list)
        sub(/\}$/, "", list)
        count = split(list, word, ", ")
        for (i = 1; i <= count; i++) {
            rest = word[i]
            if (text ~ /^use (mathlib|Prim|Rattle\.std)\./) gsub(/◌/, "", rest)
            if (is_taken(rest)) here("a use that brings " word[i] ", which could change what a theorem says")
            note_name(word[i])
        }
    } else here("a use of none of the accepted forms")
}

function bring(kind, label, path) {
    if (!is_label(label)) here("a use under a name that is no label: " label)
    else if ((crate, kind, label) in brought) here("a second use under the name of " label)
    brought[crate, kind, label] = path
    labels++
    label_crate[labels] = crate
    label_text[labels] = label
    label_place[labels] = file ":" FNR
    if (kind == "whole") is_module[crate, label] = 1
}

function read_says(word,    label) {
    label = without(word, "_says")
    if (!is_label(label) || plain($0) != "abbrev " label "_says : Says " label ".ended (λ w κs a r s. (" label ".clauses " \
        "w.𝓛 w.𝓜.mem w.𝓡.run κs a).ensures tt r s)") here("a reading of none of the accepted forms: " word)
    if ((crate, label) in says) here("a second " word)
    says[crate, label] = 1
    awaited = label "_says = record { claim = _; exactly = λ w κs a r s. refl }"
}

# "(A B C D : _) → " makes " A B C D", of names that differ; anything else makes ""
function generic_in(text,    word, count, i, all, seen) {
    if (!match(text, /^\([a-z]( [a-z])* : _\) → /)) return ""
    count = split(substr(text, 2, index(text, " : _") - 2), word, " ")
    for (i = 1; i <= count; i++) {
        if (word[i] in seen) return ""
        seen[word[i]] = 1
        all = all " " word[i]
    }
    return all
}

# the statement for a function that is generic in the names `all`, of which its parameters' kinds take the first ones
function is_generic(said, number, label, all,    first) {
    for (first = all; first != ""; first = substr(first, 1, length(first) - 2))
        if (said == number "(" label "_kinds.ps" first ") (" label "_kinds.r" first ") (" label "_reads.Post" all ")") return 1
    return 0
}

function read_theorem(word,    label, said, number, path, all) {
    label = without(word, "_determined")
    said = plain(substr($0, length(word " : ") + 1))
    path = ""
    all = generic_in(said)
    if (all != "") said = substr(said, index(said, " → ") + length(" → "))
    if (match(said, /^Determined [0-9]+ /)) {
        number = substr(said, 1, RLENGTH)
        if ((all == "" ? said == number label "_kinds.ps " label "_kinds.r " label "_reads.Post" : is_generic(said, number, label, all)) &&
            (crate, "kinds", label) in brought && brought[crate, "kinds", label] == brought[crate, "reads", label])
            path = brought[crate, "kinds", label]
    } else if (all == "" && said == "DeterminedOf " label ".ended " label "_says.claim" && (crate, label) in says)
        path = brought[crate, "whole", label]
    if (path == "") here("the theorem " word " is not in an accepted form over the contract of one function of this crate")
    else if (!((crate, path) in public)) here("the theorem " word " is of " path ", which is no public function")
    if ((crate, label) in theorem || (crate, path) in proven) here("a second theorem " word)
    theorem[crate, label] = 1
    if (path != "") proven[crate, path] = 1
    sub(/ .*/, " ", said)
    needs = needs said
    proved = label
    awaited = word
}

END {
    end_file()
    for (i = 1; i <= labels; i++)
        if (!((label_crate[i], label_text[i]) in theorem)) complain(label_place[i], "no theorem uses " label_text[i])
    for (i = 1; i <= names; i++)
        if ((name_crate[i], name_text[i]) in is_module) complain(name_place[i], name_text[i] " is the name of a function's contract too")
    for (i = 1; i <= total; i++)
        if (!(crate_of[i] in has_file))
            complain("crates/" crate_of[i] "/proofs/Determined.antt", "it is missing, and " crate_of[i] "::" name_of[i] " is public")
        else if (!((crate_of[i], path_of[i]) in proven))
            complain("crates/" crate_of[i] "/proofs/Determined.antt", "no theorem for the public function " crate_of[i] "::" name_of[i])
    exit bad
}
