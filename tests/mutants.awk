# Lists one-token changes of Rattle sources and picks a sample of each crate, for tests/mutants. Called with seed and
# count set, with pass=1 before all sources (whose declarations say what may stand for what) and pass=2 before those to
# change.
# A line each, split by tabs: CRATE QUOTA FILE LINE COLUMN FUNCTION OLD NEW TEXT (the line once changed). A crate's
# lines come in the seed's order; the first QUOTA of them are its sample, and the others stand in for those that the
# compiler refuses. Of a table, one entry in 16, by the seed, counts as a line of code and is drawn like any other; the
# rest of it comes last, or a sample would have little else.
BEGIN {
    FS = "\n"
    split("== != <= < >= > + - * / % & | && || << >> += -=", word, " ")
    split("!= == < <=,>= > >=,< - + / * / | & || && >> << -= +=", others, " ")
    for (i in word) instead[word[i]] = others[i]
    instead["true"] = "false"; instead["false"] = "true"
}

function braces(s) { return gsub(/\{/, "{", s) - gsub(/\}/, "}", s) }
function belongs(name, group) {
    if ((group, name) in known) return # two modules may have a constant of the same name
    known[group, name]; member[group, ++size[group]] = name; places[name] = places[name] "\t" group
}
# What may stand for a name: the next of its group.
function sibling(name,    n, k, g, i) {
    n = split(places[name], g, "\t")
    for (k = 2; k <= n; k++)
        for (i = 1; i <= size[g[k]] && size[g[k]] > 1; i++)
            if (member[g[k], i] == name) return member[g[k], i % size[g[k]] + 1]
    return ""
}

function change(col, old, new,    text) {
    text = substr($0, 1, col - 1) new substr($0, col + length(old))
    sub(/^ +/, "", text)
    found[crate late, ++candidates[crate late]] = FILENAME "\t" FNR "\t" col "\t" fn "\t" old "\t" new "\t" text
}

function plus_one(n,    v, k) {
    if (n !~ /^0x/) return sprintf("%.0f", n + 1)
    for (k = 3; k <= length(n); k++) v = v * 16 + index("0123456789ABCDEF", toupper(substr(n, k, 1))) - 1
    return sprintf("0x%0" (length(n) - 2) "X", v + 1)
}

function scan(s, i,    n, k, c, before, rest, w, alt) {
    for (; i <= length(s); i += n) {
        rest = substr(s, i); c = substr(s, i, 1); before = substr(s, i - 1, 1); n = 1
        if (rest ~ /^\/\//) return
        if (match(rest, /^b?"(\\.|[^"\\])*"/) || match(rest, /^b'(\\.|[^'\\])*'/)) {
            n = RLENGTH; w = substr(rest, 1, n); k = c == "b" ? 2 : 1
            # not what stands in braces, a variable that is printed
            if (n > k + 1 && (k == 2 || substr(w, 2, 1) != "{"))
                change(i, w, substr(w, 1, k) (substr(w, k + 1, 1) == "\\" ? "\\t" substr(w, k + 3) : "~" substr(w, k + 2)))
        } else if (match(rest, /^[A-Za-z_][A-Za-z0-9_]*(::[A-Z][A-Za-z0-9_]*)?/)) {
            n = RLENGTH; w = substr(rest, 1, n)
            if (w in instead) change(i, w, instead[w])
            else if (before == "." && substr(rest, n + 1, 1) != "(" && sibling("." w)) change(i, w, substr(sibling("." w), 2))
            else if (sibling(w)) change(i, w, sibling(w))
        } else if (match(rest, /^(0x[0-9A-Fa-f]+|[0-9]+)/)) {
            n = RLENGTH; w = substr(rest, 1, n)
            if (before != "." || substr(s, i - 2, 2) == "..") change(i, w, plus_one(w)) # not .0, a field
        } else if (rest ~ /^![A-Za-z(]/ && before !~ /[A-Za-z0-9_]/) { # not a macro's
            change(i, substr(rest, 1, 2), substr(rest, 2, 1))
        } else if (match(rest, /^[-+*\/%&|<>=!]+/)) {
            n = RLENGTH; w = substr(rest, 1, n)
            if ((w in instead) && before == " " && substr(rest, n + 1, 1) == " ")
                for (k = split(instead[w], alt, ","); k > 0; k--) change(i, w, alt[k])
        }
    }
}

FNR == 1 { crate = FILENAME; sub(/^crates\//, "", crate); sub(/\/.*/, "", crate); sig = contract = decl = table = skipped = 0; fn = "-" }
{ t = $0; sub(/^ +/, "", t) }
t == "" || t ~ /^\/\// { next }
# an import, an attribute or the law of a trait, over as many lines as it has
skipped || t ~ /^((pub )?(use|mod|type) |ghost (use |[a-z_]+ = )|#!?\[)/ { skipped = t !~ /[;\]]$/; next }

# Fields of a type, cases with the same payload, constants of a type: each may stand for another of them.
pass == 1 {
    if (match(t, /^(pub )?(struct|enum) [A-Za-z0-9_]+/)) {
        type = substr(t, 1, RLENGTH); kind = type ~ /struct/; sub(/.* /, "", type); decl = braces(t)
    } else if (decl > 0) {
        decl += braces(t)
        name = t; sub(/^pub /, "", name); rest = name
        sub(/[^A-Za-z0-9_].*/, "", name); sub(/^[A-Za-z0-9_]+/, "", rest); sub(/ = .*/, ",", rest)
        if (name != "") belongs(kind ? "." name : type "::" name, crate " " type " " rest)
    } else if (match(t, /^(pub )?const [A-Z0-9_]+: [A-Za-z0-9]+ = /)) {
        name = substr(t, 1, RLENGTH); sub(/^(pub )?const /, "", name); rest = name; sub(/:.*/, "", name); sub(/^.*: /, "", rest)
        belongs(name, crate " const " rest)
    }
    next
}

# Contracts, signatures and declarations are not changed, but for the number of a case: to one that no case has.
contract > 0 || (sig && t ~ /^(requires|ensures)\*? ([a-z_0-9]+ )?\{/) { contract += braces(t); next }
decl > 0 && match(t, /^[A-Z][A-Za-z0-9]* = [0-9]+,$/) {
    lines[crate]++; fn = type; name = t; gsub(/^.* = |,$/, "", name)
    change(index($0, " = ") + 3, name, sprintf("%.0f", name + 64)); next
}
decl > 0 || t ~ /^(pub )?(struct|enum) / { if (decl == 0) { type = t; sub(/ *[{(;<].*/, "", type); sub(/.* /, "", type) } decl += braces(t); next }
match(t, /^(pub )?(const )?(extern "C" )?fn [A-Za-z0-9_]+/) { fn = substr(t, 1, RLENGTH); sub(/.* /, "", fn); sig = 1 }
sig { if (t ~ /\{$/) sig = 0; next }
t ~ /^[][{}(),;]+$/ { table = 0; next }
table && (FNR + seed) % 16 { late = " late"; scan($0, 1); late = ""; next }
t ~ /^(pub )?const .*\[$/ { table = 1 }
t ~ /^(pub )?const / { fn = t; sub(/^(pub )?const /, "", fn); sub(/:.*/, "", fn); lines[crate]++; scan($0, index($0, " = ")); next }
{
    lines[crate]++
    scan($0, 1)
    # an assignment or a call on one line, dropped
    s = t
    if (t ~ /^[a-z*].*;$/ && t !~ /^(let|return|break)[ ;]/ && gsub(/\(/, "(", s) == gsub(/\)/, ")", s)) change(index($0, t), substr(t, 1, 1), "// " substr(t, 1, 1))
}

# Exact in any awk, so that a seed means the same everywhere.
function random(n) { state = (state * 69069 + 12345) % 4294967296; return int(state / 4294967296 * n) + 1 }
END {
    for (c in lines) all += lines[c]
    for (c in lines) {
        state = seed % 4294967296
        for (i = 1; i <= length(c); i++) state = (state * 31 + index("abcdefghijklmnopqrstuvwxyz_0123456789", substr(c, i, 1))) % 4294967296
        for (i = candidates[c]; i > 1; i--) { j = random(i); x = found[c, i]; found[c, i] = found[c, j]; found[c, j] = x }
        quota = int(count * lines[c] / all + 0.5)
        if (quota < 2) quota = 2
        if (quota > candidates[c] + candidates[c " late"]) quota = candidates[c] + candidates[c " late"]
        for (i = 1; i <= candidates[c]; i++) print c "\t" quota "\t" found[c, i]
        for (i = 1; i <= candidates[c " late"]; i++) print c "\t" quota "\t" found[c " late", i]
    }
}
