# Prints one line for each public function of the given Rattle sources, also for methods and `extern "C"` functions. The line has four
# columns with tabs between them: the file, the function, `requires` or `-`, and the text of its `ensures` or `-`. A `pub use` is printed as
# the function `pub use` with neither, since the functions that it exports are in other files, and a `pub trait` as the function `pub trait`,
# since its methods have no `pub` of their own. An `impl TRAIT for TYPE` is printed as the function `impl for TYPE`; its `ensures` is `ghost`
# where it says what the trait's functions give here. A public struct that has both a ghost field and a public field is printed as `struct TYPE`
# with a `requires`, since a caller that makes a value of it would have to prove the ghost field. Comments and literals are skipped.

# The header of the function `name` ends at its body, at a `;` in place of a body, or at the end of the file. A clause that is open there does
# not count.
function header_ends() {
    if (clause == "ensures" || contract ~ /^ *$/) contract = "-"
    print file "\t" (type == "" ? name : type "::" name) "\t" required "\t" contract
    name = clause = ""
}

# Handles a token: a word, a literal as `"`, or one other character.
function token(t) {
    if (clause != "") inside_clause(t)
    else if (name != "") inside_header(t)
    else outside(t)
    last = t
}

function inside_clause(t) {
    if (t == "{") open++
    if (t == "}" && --open == 0) clause = ""
    else if (clause == "ensures") contract = contract t
}

# A clause begins with its kind, and before its brace can be a star and a name, as in `ensures low {`.
function inside_header(t) {
    if (t == "requires" || t == "ensures") { kind = t; return }
    if (kind != "" && t ~ /^(\*|[A-Za-z0-9_]+)$/) return
    if (t ~ /^[[(]$/) nested++
    else if (t ~ /^[])]$/) nested--
    else if (t == ";" && nested == 0) header_ends()
    else if (t == "{" && kind == "") {
        header_ends()
        depth++
    } else if (t == "{") {
        clause = kind
        open = 1
        if (clause == "requires") required = "requires"
    }
    kind = ""
}

# `pub(crate)` is not public. `extern "C"`, `const` and `unsafe` can come between `pub` and `fn`.
function outside(t) {
    if (public && last == "fn") {
        name = t
        contract = kind = ""
        required = "-"
        public = nested = 0
        return
    }
    if (public && t ~ /^(use|trait)$/) print file "\tpub " t "\t-\t-"
    if (depth == 0 && t == "struct") { shown = public; naming = 1; facts = fields = 0 }
    else if (naming) { struct = shown ? t : ""; naming = 0 }
    if (depth == 0 && t == ";") struct = ""
    if (depth == 1 && struct != "" && t == "pub") fields = 1
    if (depth == 1 && last == "ghost" && t != "use") facts = 1
    if (t == "pub") public = 1
    else if (t !~ /^(fn|extern|const|unsafe|")$/) public = 0
    block(t)
}

# Keeps track of blocks. The type of an `impl` block is the last word before its brace that is not between `<` and `>`.
function block(t) {
    if (t == "impl" && depth == 0) { heading = 1; type = ""; angle = traits = facts = 0 }
    else if (heading && t == "for") traits = 1
    else if (heading && t == "<") angle++
    else if (heading && t == ">") angle--
    else if (heading && angle == 0 && t ~ /^[A-Za-z0-9_]+$/) type = t
    if (t == "{") { depth++; heading = 0 }
    if (t == "}" && --depth == 0) {
        if (traits) print file "\timpl for " type "\t-\t" (facts ? "ghost" : "-")
        if (struct != "" && facts && fields) print file "\tstruct " struct "\trequires\tghost"
        type = struct = ""
        traits = facts = 0
    }
}

function cut(n) { rest = substr(rest, n + 1) }

FNR == 1 {
    if (name != "") header_ends()
    file = FILENAME
    public = depth = heading = comment = traits = facts = naming = 0
    type = last = struct = ""
}
{
    rest = $0
    if (clause == "ensures") contract = contract " "
    while (rest != "") {
        if (rest ~ /^\/\*/) { comment++; cut(2) }
        else if (comment > 0) { if (rest ~ /^\*\//) { comment--; cut(2) } else cut(1) }
        else if (rest ~ /^\/\//) rest = ""
        else if (match(rest, /^[ \t]+/)) { if (clause == "ensures") contract = contract " "; cut(RLENGTH) }
        else if (match(rest, /^b?"([^"\\]|\\.)*"/) || match(rest, /^b'(\\x..|\\.|[^'\\])'/)) { cut(RLENGTH); token("\"") }
        else if (match(rest, /^[A-Za-z0-9_]+/)) { word = substr(rest, 1, RLENGTH); cut(RLENGTH); token(word) }
        else { word = substr(rest, 1, 1); cut(1); token(word) }
    }
}
END { if (name != "") header_ends() }
