# Reads the sources of all crates, crates/CRATE/src/.../FILE.rt, and prints a line for each public function:
#     CRATE <tab> MODULE::TYPE::NAME <tab> FILE:LINE
# It is a part of .ci/listed, and reads bytes: it needs LC_ALL=C. It is a small parser of items and not a search for lines, so blanks, line
# breaks, comments and attributes may stand anywhere. A function is public if it is `pub`, in whatever module, or is exported to C, or
# stands in a `pub trait`. It complains of a public function that has any clause but `ensures`.
#
# An `impl` of a trait has no name, and its functions are not `pub`. Where the trait stands in the same module of the same file, what they promise is what the
# trait's functions do, which are listed. Where it is one of the library, the promise stands in the `impl` itself, in the ghost members that
# are named below, and its functions are listed under the name that the toolchain gives the `impl`: TYPETRAITARGUMENTS.
#
# What it does not understand it must not pass. The rule: the word fn either stands in a comment that has its line to itself, or begins a
# function which is read here. All else, and each form that no crate has yet, ends with a complaint; extend this parser then.

function complain(place, text) {
    print "listed: " place ": " text | "cat >&2"
    bad = 1
}

# what is not understood: the rest of the file is not read
function lost(text) {
    if (!dead) complain(file ":" line, text ": this script cannot tell which functions stand there")
    dead = 1
}

# The library's traits of which an `impl` is understood, each with the ghost members that such an `impl` may give, none of which asks anything of
# callers, and with the module in which it stands: an `impl` that names another before the trait is not understood.
BEGIN {
    members["From"] = " from_gives "
    homes["From"] = "convert"
}

function join(module, last) { return module == "" ? last : module "::" last }
function is_word(t) { return t ~ /^[A-Za-z_]/ }
function has_fn(text) { return text ~ /(^|[^A-Za-z0-9_])fn([^A-Za-z0-9_]|$)/ }

# --- files ---

# lib.rt and main.rt are the crate's root; a.rt is the module a, and a/b.rt the module a::b: a `mod` item has to say so (see END)
function start_file(    part, count, i, path) {
    file = FILENAME
    count = split(file, part, "/")
    crate = part[2]
    path = ""
    if (count > 4 || (part[4] != "lib.rt" && part[4] != "main.rt")) {
        sub(/\.rt$/, "", part[count])
        for (i = 4; i <= count; i++) path = join(path, part[i])
        module_of[file] = crate SUBSEP path
    }
    dead = depth = 0
    modules[0] = path
    types[0] = kinds[0] = ""
    next_item()
}

function end_file() {
    if (file != "" && !dead && (state != "item" || depth != 0)) lost("the file ends within an item")
}

# --- items: `state` says what is being read ---

function next_item() {
    state = "item"
    visible = named = given = way = ""
    exported = round = curly = behind = 0
}

# the braces of a `mod`, an `impl` or a `trait` hold items; kind: of which sort they are, where their functions are not as elsewhere
function open_level(module, type, kind) {
    depth++
    modules[depth] = module
    types[depth] = type
    kinds[depth] = kind
    next_item()
}

function nest(t) {
    if (t == "(" || t == "[") round++
    if (t == ")" || t == "]") round--
    if (t == "{") curly++
    if (t == "}") curly--
}

# takes one token: a word, one other character, 0 for a number, " for a literal, ' for a lifetime
function parse(t) {
    if (t == "fn" && state !~ /^(item|visible|const|extern|final)$/) { lost("the word fn where no function can begin"); return }
    if (state == "visible" && t == "(") { visible = "in part"; state = "group" }
    if (state == "visible") state = "item"
    if (state == "item") in_item(t)
    else if (state == "group") in_group(t)
    else if (state == "attribute") in_attribute(t)
    else if (state == "const") { if (t == "fn") state = "name"; else { state = "value"; in_value(t) } }
    else if (state == "extern") { if (t == "fn") state = "name"; else if (t != "\"") lost("a block of C functions") }
    else if (state == "final") { if (t == "fn") state = "name"; else lost("a `final`") }
    else if (state == "ghost") in_ghost(t)
    else if (state == "mod") in_mod(t)
    else if (state == "impl") in_impl(t)
    else if (state == "trait") in_trait(t)
    else if (state == "type") in_type(t)
    else if (state == "fields") in_fields(t)
    else if (state == "use") in_use(t)
    else if (state == "value") in_value(t)
    else if (state == "name") in_name(t)
    else if (state == "head") in_head(t)
    else if (state == "clause") in_clause(t)
    else if (state == "body") in_body(t)
}

function in_item(t) {
    if (t == "#") state = "attribute"
    else if (t == "pub") { visible = "pub"; state = "visible" }
    else if (t == "extern") { exported = 1; state = "extern" }
    else if (t == "const") state = "const"
    else if (t == "fn") state = "name"
    else if (t == "mod" || t == "impl" || t == "trait" || t == "ghost") state = t
    else if (t == "final" && kinds[depth] ~ /^(public )?trait$/) state = "final"
    else if (t == "struct" || t == "enum") state = "type"
    else if (t == "type") state = "value"
    else if (t == "use" && visible == "pub") lost("`pub use`, which may pass a function on")
    else if (t == "use") { used = ""; state = "use" }
    else if (t == "}" && depth > 0) { depth--; next_item() }
    else lost("an item that begins with `" t "`")
}

# the rest of pub(crate) and its like, which are not public
function in_group(t) {
    nest(t)
    if (round == 0) state = "item"
}

# no_mangle hands a function to C; path would lead to a file that does not have the module's name
function in_attribute(t) {
    nest(t)
    if (t == "no_mangle" || t == "export_name") exported = 1
    if (t == "path" || t == "cfg" || t == "cfg_attr") lost("an attribute `" t "`")
    if (round == 0 && t == "]") state = "item"
    else if (round == 0 && t != "!") lost("an attribute")
}

# the value of a const, or the type that a `type` names
function in_value(t) {
    nest(t)
    if (t == ";" && round == 0 && curly == 0) next_item()
}

function in_mod(t) {
    if (named == "" && is_word(t)) named = t
    else if (named != "" && t == ";") { declared[crate, join(modules[depth], named)] = 1; next_item() }
    else if (named != "" && t == "{") open_level(join(modules[depth], named), "", "")
    else lost("a `mod`")
}

# `impl TYPE` or `impl TRAIT<ARGUMENT> for TYPE`, each one word, but a trait may stand behind its module. `behind` says what has been read:
# 1 the first name's own <..>, 2 the `for`
function in_impl(t) {
    if (t == "<" && behind == 2) lost("an `impl` for a type with arguments")
    else if (t == "<") { round++; if (named != "") behind = 1 }
    else if (t == ">") round--
    else if (round > 0) { if (behind == 1) given = given (is_word(t) ? capital(t) : "?") }
    else if (t == "for" && named ~ /[^:]$/ && behind != 2 && given !~ /\?/) { impl_of = named; named = ""; behind = 2 }
    else if (t == ":" && named != "" && behind == 0) named = named ":"
    else if (named ~ /[^:]::$/ && is_word(t)) { way = way named; named = t }
    else if (named == "" && is_word(t)) named = t
    else if (t == "{" && named ~ /[^:]$/ && behind == 2) open_impl()
    else if (t == "{" && named ~ /[^:]$/) open_level(modules[depth], named, "")
    else lost("the type of an `impl`")
}

function capital(text) { return toupper(substr(text, 1, 1)) substr(text, 2) }

function open_impl(    name) {
    name = capital(named) impl_of given
    impls++
    impl_trait[impls] = impl_of
    impl_key[impls] = way == "" ? file SUBSEP modules[depth] SUBSEP impl_of : ""
    impl_place[impls] = file ":" line
    if ((impl_of in members) && way != "" && way != homes[impl_of] "::" && way != "std::" homes[impl_of] "::")
        complain(file ":" line, "an `impl` of " way impl_of ", which this script does not know")
    is_type[crate, join(modules[depth], name)] = 1
    open_level(modules[depth], name, (impl_of in members) ? "listed impl of a trait" : "impl of a trait")
    trait_of[depth] = impl_of
}

# what a trait stands above may ask something of a type, but of no value
function in_trait(t) {
    if (named == "" && is_word(t)) {
        named = t
        if (t in members || t in is_trait ||
            t ~ /^((Into)?Iterator|Model|Owns|Clone|Copy|Hash|(Partial)?(Eq|Ord)|Fn(Mut|Once)?|TryFrom|Default|Display|Error|Drop)$/)
            complain(file ":" line, "a second trait " t)
        is_trait[t] = trait_at[file, modules[depth], t] = 1
        is_type[crate, join(modules[depth], t)] = 1
    }
    else if (named != "" && t == "{") open_level(modules[depth], named, visible == "pub" ? "public trait" : "trait")
    else if (named == "" || !(is_word(t) || t ~ /^[:+,<>=']$/)) lost("a trait")
}

# a ghost member of a trait, or of an `impl` of one; elsewhere only a `use`
function in_ghost(t) {
    if (t != "use" && kinds[depth] !~ /trait$/) { lost("a ghost item"); return }
    if (t != "use" && kinds[depth] ~ /impl/ && (trait_of[depth] in members) && index(members[trait_of[depth]], " " t " ") == 0)
        complain(file ":" line, "a ghost member " t " in an `impl` of " trait_of[depth])
    state = "antt"
    clause = 0
}

function in_type(t) {
    if (!is_word(t)) { lost("a type"); return }
    is_type[crate, join(modules[depth], t)] = 1
    state = "fields"
}

# a ghost field can ask for what nobody has, as a requires can
function in_fields(t) {
    nest(t)
    if (t == "ghost") complain(file ":" line, "a type has a ghost field, which can ask something of callers")
    if (round == 0 && curly == 0 && (t == ";" || t == "}")) next_item()
}

# `use crate::a::T;` is kept in mind: an `impl T` may follow. A `use` may bring the traits of `members` and the modules in which they stand from
# the library alone, and nothing else under their names
function in_use(t,    path, name) {
    nest(t)
    if (t != ";" || curly > 0) { used = used " " t; return }
    if (used ~ / \*( |$)/) lost("a `use` of all that a module has")
    for (name in members)
        if ((brings(name) && used !~ ("^ std : : " homes[name] " : : ")) || (brings(homes[name]) && used !~ ("^ std : : (" homes[name] "|\\{)")) ||
            used ~ (" as (" name "|" homes[name] ")( |$)"))
            complain(file ":" line, "a `use` that brings " name " or " homes[name] " from elsewhere")
    if (used ~ /^ crate( : : [A-Za-z_][A-Za-z0-9_]*)+$/) {
        path = substr(used, length(" crate : : ") + 1)
        gsub(/ : : /, "::", path)
        sub(/.* /, "", used)
        brought[crate, modules[depth], used] = path
    }
    next_item()
}

# whether a path in the `use` ends with this name, or with `self` behind it
function brings(name) { return used ~ (" " name "( : : \\{( [^{}]* ,)? self| [,}]|$)") }

function in_name(t) {
    if (!is_word(t)) { lost("a function without a name"); return }
    public = (visible == "pub" || exported || kinds[depth] == "public trait" || kinds[depth] == "listed impl of a trait")
    state = "head"
    if (!public) return
    functions++
    crate_of[functions] = crate
    within[functions] = modules[depth]
    type_of[functions] = types[depth]
    name_of[functions] = t
    place_of[functions] = file ":" line
}

# from the name to the brace of the body: parameters, result, clauses
function in_head(t) {
    if (t == "{" && round == 0) { state = "body"; curly = 1; return }
    nest(t)
    if (t == ";" && round == 0 && kinds[depth] ~ /^(public )?trait$/) { next_item(); return }
    if (t == "{" || (t == ";" && round == 0)) lost("a function without a body")
    if (round > 0) return
    if ((t == "requires" || t == "ghost") && (public || kinds[depth] ~ /impl/))
        complain(file ":" line, (public ? "the public function " name_of[functions] : "a function of an `impl` of a trait") " has a " t)
    if (t == "requires" || t == "ghost" || t == "ensures") { named = ""; state = "clause" }
}

# a clause may have a name before its brace
function in_clause(t) {
    if (t == "{") { state = "antt"; clause = curly = 1 }
    else if (named != "" || !is_word(t) || t ~ /^(requires|ghost|ensures)$/) lost("a clause")
    named = t
}

function in_body(t) {
    nest(t)
    if (curly == 0) next_item()
}

# --- tokens: no token goes over the end of its line ---

function cut(    text) {
    text = substr(rest, 1, RLENGTH)
    rest = substr(rest, RLENGTH + 1)
    return text
}

function take(    text) {
    if (match(rest, /^ +/)) cut()
    else if (rest ~ /^\/\//) {
        if (has_fn(rest)) lost("the word fn in a comment beside code")
        rest = ""
    }
    else if (match(rest, /^b?"([^"\\]|\\.)*"/)) {
        if (has_fn(cut())) lost("the word fn in a string")
        parse("\"")
    }
    else if (match(rest, /^b'(\\.[^']*|[^'\\])'/)) { cut(); parse("\"") }
    else if (match(rest, /^'[A-Za-z_][A-Za-z0-9_]*/) && substr(rest, RLENGTH + 1, 1) != "'") { cut(); parse("'") }
    else if (match(rest, /^[A-Za-z_][A-Za-z0-9_]*/)) {
        text = cut()
        if (text ~ /^(r|br|c|cr)$/ && rest ~ /^["#]/) lost("a raw string or name")
        parse(text)
    }
    else if (match(rest, /^[0-9][A-Za-z0-9_]*/)) { cut(); parse("0") }
    else if (rest ~ /^(\/\*|["'\\]|[\200-\377])/) lost("a comment /* */, a string over two lines, or a letter that is not ASCII")
    else { match(rest, /^./); parse(cut()) }
}

# the text of a clause or of a `ghost use` is antt's: its braces count, and nothing may stand there that could hide one
function take_antt(    text, plain) {
    match(rest, /^[^{};]*/)
    plain = text = cut()
    gsub(/«[A-Za-z0-9_]+»|⟦[A-Za-z0-9_ .,:()&*<>=+-]+⟧/, "", plain)
    if (plain ~ /«|»|⟦/ || text ~ /"|--|\/\/|\/\*/ || has_fn(text)) lost("a clause with a quote, a comment or the word fn")
    if (rest == "") return
    match(rest, /^./)
    text = cut()
    nest(text)
    if (text == "{" && rest ~ /^-/) lost("a clause with a comment")
    if (clause && curly == 0) state = "head"
    if (!clause && curly == 0 && text == ";") next_item()
}

FNR == 1 { end_file(); start_file() }
{
    line = FNR
    rest = $0
    if (state != "antt" && rest ~ /^ *\/\//) rest = ""
    while (rest != "" && !dead) { if (state == "antt") take_antt(); else take() }
}

# --- what can be told only when all is read: the path of each function ---

# a method's path is its type's, wherever its `impl` stands; it is empty where the type cannot be told
function path_of(i,    key, at_home) {
    if (type_of[i] == "") return join(within[i], name_of[i])
    at_home = join(within[i], type_of[i])
    if ((crate_of[i], at_home) in is_type) return join(at_home, name_of[i])
    key = crate_of[i] SUBSEP within[i] SUBSEP type_of[i]
    if (key in brought && (crate_of[i], brought[key]) in is_type) return join(brought[key], name_of[i])
    return ""
}

END {
    end_file()
    for (file in module_of)
        if (!(module_of[file] in declared)) complain(file, "no `mod` of its crate leads to it by its name: its functions have no path")
    for (i = 1; i <= impls; i++)
        if (!(impl_trait[i] in members) && !(impl_key[i] in trait_at))
            complain(impl_place[i], "an `impl` of " impl_trait[i] ", which is none of the traits that this script knows")
    for (i = 1; i <= functions; i++) {
        path = path_of(i)
        if (path == "") complain(place_of[i], "the `impl` is of a type that is neither of this module nor brought by `use crate::..`")
        else if ((crate_of[i], path) in seen) complain(place_of[i], "a second public function " crate_of[i] "::" path)
        else print crate_of[i] "\t" path "\t" place_of[i]
        seen[crate_of[i], path] = 1
    }
    exit bad
}
