# The names in docs/PROMISES.md, docs/DECISIONS.md and docs/ARCHITECTURE.md. What is said to be "of" or "in" a
# crate, a file or a record is defined there; every other name in backquotes is defined somewhere; the
# must-fail edits, vectors and files that are named are there; and docs/ARCHITECTURE.md names each crate. Of
# README.md, which has other words in backquotes too, only what is said to be somewhere.
set -eu
cd "$(dirname "$0")/.."
export LC_ALL=C
out=target/tests/names
rm -rf "$out"
mkdir -p "$out"

# What is defined: crate, file, name, and the record, struct or enum that it is a part of.
find crates \( -path '*/src/*.rt' -o -path '*/specs/*.antt' -o -path '*/proofs/*.antt' \) | sort >"$out/files"
xargs awk '
    function is(name, part) { print path[2] "\t" FILENAME "\t" name "\t" part }
    FNR == 1 {
        n = split(FILENAME, path, "/")
        owner = ""
        depth = 0
        name = path[n]
        if (sub(/\.antt$/, "", name)) is(name, "")
    }
    { line = $0; sub(/ *(\/\/|-- ).*/, "", line); match(line, /^ */); indent = RLENGTH }
    FILENAME ~ /\.rt$/ {
        if (match(line, /^ *(pub )?(extern "C" )?(fn|struct|enum|const|type) +[A-Za-z_0-9]+/)) {
            name = kind = substr(line, 1, RLENGTH)
            sub(/.* /, "", name)
            is(name, indent ? owner : "")
            if (kind ~ /(struct|enum) /) owner = name
        } else if (match(line, /^impl +[A-Za-z_0-9]+/)) {
            owner = substr(line, 6, RLENGTH - 5)
        } else if (match(line, /^    (pub )?[A-Za-z_0-9]+ *([:,(]|$)/)) {
            name = substr(line, 1, RLENGTH)
            gsub(/^ *(pub )?| *[:,(]?$/, "", name)
            is(name, owner)
        }
        next
    }
    # What is no part of a record, stands further in than two columns and is not public is of one proof alone.
    line !~ /[^ ]/ { next }
    indent <= depth { owner = "" }
    indent > 2 && line !~ /^ *((abbrev|unfoldable) )?pub / && !(owner != "" && indent == depth + 2) { next }
    { while (sub(/^ *(abbrev|unfoldable|pub|mutual) +/, "", line)) {}; sub(/^ +/, "", line) }
    line ~ /^(record|data) / {
        sub(/^(record|data) +/, "", line)
        sub(/[ :].*/, "", line)
        owner = line
        depth = indent
        is(line, "")
        next
    }
    match(line, /^[^ (){}=:]+( [^ (){}=:]+)* :( |$)/) {
        n = split(substr(line, 1, RLENGTH), each, " ")
        for (i = 1; i < n; i++) is(each[i], indent == depth + 2 ? owner : "")
    }' <"$out/files" >"$out/defined"

# What the documents say: where, the name, and where it should be ("crate X", "file X", "part X" of a record,
# or "any" of these); or where, a path with its wildcards, and "path".
cat >"$out/claims.awk" <<'END'
FILENAME ~ /\/defined$/ {
    split($0, d, "\t")
    crates[d[1]] = 1
    if (d[4] != "") owners[d[4]] = 1
    next
}
FILENAME ~ /\/files$/ { files[$0] = 1; next }
FILENAME ~ /\/vectors$/ { vectors[$0] = 1; next }

# The tokens of a line: text[i], and isCode[i] for one in backquotes.
function tokens(line,   n, word) {
    for (n = 0; line != ""; line = substr(line, RLENGTH + 1)) {
        if (match(line, /^ +/)) continue
        isCode[++n] = match(line, /^`[^`]*`/)
        if (isCode[n]) {
            text[n] = substr(line, 2, RLENGTH - 2)
        } else if (match(line, /^[A-Za-z0-9_.*\/-]+/)) {
            word = substr(line, 1, RLENGTH)
            if (word ~ /[A-Za-z0-9*]\.$/) sub(/\.$/, "", word)
            text[n] = word
        } else {
            match(line, /^./)
            text[n] = substr(line, 1, 1)
        }
    }
    isCode[0] = isCode[n + 1] = isCode[n + 2] = 0
    text[0] = text[n + 1] = text[n + 2] = ""
    return n
}
function isJoint(i) { return !isCode[i] && text[i] ~ /^(,|and|or|\.\.)$/ }
function isOf(i) { return !isCode[i] && (text[i] == "of" || text[i] == "in") }
function said(name, where) { print FILENAME ":" FNR "\t" name "\t" where }
function claim(name, where) { if (name ~ /^[A-Za-z_][A-Za-z0-9_-]*$/) said(name, where) }

# The names up to the token j, joined by commas and "and", are said to be there. A name that says itself where
# others are is none of them; before "(File)" it is the one that is meant.
function listed(j, where, isBracketed) {
    while (isJoint(j)) j--
    for (; isCode[j] && !(text[j] in crates); isBracketed = 0) {
        if (isOf(j - 1) && !isBracketed) return
        claim(text[j], where)
        if (isOf(j - 1) || where ~ /^part /) return
        for (j--; isJoint(j); j--) {}
    }
}
# Where a text leads; empty if nowhere.
function target(word, isInCode,   file) {
    sub(/^crates\//, "", word)
    sub(/\/specs$/, "", word)
    if (word in crates) return "crate " word
    if (isInCode && (word in owners)) return "part " word
    sub(/\.antt$/, "", word)
    if (word == "D") word = "demands/specs/Demands"
    file = "crates/" word ".antt"
    if (!(file in files)) file = "crates/rules/specs/" word ".antt"
    if (!(file in files)) file = "crates/demands/specs/" word ".antt"
    return file in files ? "file " file : ""
}
# A word that can only be a name of ours: joined_so, joined-so, joinedSo or Joined.
function isOurs(word) {
    if (word ~ /^[A-Za-z][A-Za-z0-9]*([-_][A-Za-z0-9]+)+$/) return 1
    return word ~ /^[a-z]+[A-Z][A-Za-z0-9]*$/ || word ~ /^[A-Z][a-z]/
}
# `name` (File, File)
function bracketed(i,   j) {
    for (j = i + 1; !isCode[j] && (text[j] == "," || target(text[j], 0) != ""); j++) {}
    if (j > i + 1 && !isCode[j] && text[j] == ")")
        for (j = i + 1; text[j] != ")"; j++)
            if (text[j] != ",") listed(i - 1, target(text[j], 0), 1)
}
# Edits and vectors, "crate/edit, edit" and "vectors folder/name, name", and other files. What a list is of is
# in `of`.
function path(i,   word, parts, steps) {
    word = text[i]
    if (word ~ /^(tests|docs|include|examples|command|bench|crates)\/[^ ]*\.[a-z]+$/) said(word, "path")
    else if (word ~ /^[a-z]+\.rs$/) said("tests/oracle/" word, "path")
    if (isCode[i] || isJoint(i)) return
    steps = split(word, parts, "/")
    if (steps == 2 && parts[1] in crates && parts[2] ~ /^[a-z0-9_*]+$/ && parts[2] != "specs") {
        of = "crates/" parts[1] "/must-fail/"
        said(of parts[2] ".edit", "path")
    } else if (steps == 2 && parts[1] in vectors) {
        of = "tests/vectors/" parts[1] "/"
        said(of parts[2], "path")
    } else if (word in crates && text[i + 1] == "(" && text[i + 2] ~ /_/) {
        of = "crates/" word "/must-fail/"
    } else if (word ~ /^vectors?$/) {
        of = "tests/vectors/*/"
    } else if (of ~ /must-fail/ && word ~ /^[a-z0-9]+_[a-z0-9_]+$/ && !(word in crates)) {
        said(of word ".edit", "path")
    } else if (of ~ /vectors/ && word ~ /^[a-z0-9][a-z0-9*]*-[a-z0-9*-]+$/) {
        said(of word, "path")
    } else if (word != "(") {
        of = ""
    }
}
{
    n = tokens($0)
    of = ""
    for (i = 1; i <= n; i++) {
        path(i)
        if (isCode[i] && split(text[i], parts, "::") == 2 && parts[1] in crates)
            claim(parts[2], "crate " parts[1])
        if (isCode[i] && isOurs(text[i])) claim(text[i], "any")
        if (isOf(i) && isCode[i - 1]) {
            where = target(text[i + 1], isCode[i + 1])
            if (where != "") listed(i - 1, where, 0)
        }
        if (!isCode[i] && text[i] == "(") bracketed(i)
    }
}
END
ls tests/vectors >"$out/vectors"

# What C and the tests define, and what the prover makes of each function, may be named as well.
cat include/sgml.h tests/oracle/*.rs | tr -cs 'A-Za-z0-9_' '\n' | sort -u >"$out/elsewhere"
printf '%s\n' Learnt Reads Wired >>"$out/elsewhere"

# faults DOCUMENT..: each thing said that is not so.
faults() {
    awk -f "$out/claims.awk" "$out/defined" "$out/files" "$out/vectors" "$@" | sort -u >"$out/said"
    awk -F '\t' '
        FILENAME ~ /elsewhere$/ { is["any", $1]; next }
        FILENAME ~ /defined$/ {
            file = $2
            gsub(/.*\/|\.antt$/, "", file)
            is["any", $1]; is["any", $3]; is["crate " $1, $3]; is["file " $2, $3]
            is["part " $4, $3]; is["part " file, $3] # "of `Acts`" may mean the file as well as the record
            next
        }
        $3 != "path" && !(($3, $2) in is) { print $1 ": " $2 " is not defined in " $3 }
    ' "$out/elsewhere" "$out/defined" "$out/said"
    awk -F '\t' '$3 == "path" { print $1, $2 }' "$out/said" | while read -r where path; do
        compgen -G "$path" >/dev/null || echo "$where: there is no $path"
    done
}

# What is wrong is found: of these lines, the names and files that are not there, and no other.
cat >"$out/wrong.md" <<'END'
`Reaches` of `turn_laws`, `gone` of turn_laws and `next_of_lem` of and_laws; `gone_not` is said of nothing.
`declared`, `find` and `gone` of `crates/element_names`, `gone` in `type_stage`; `element_index::gone`.
`Judged`, `Read` (Judge), `not_offered` of `Refuses` (Judge), `gone` of `Refuses`; `gone_here` (D).
must-fail gaps/gap_in_closing_dashes, gone_edit and text/gone, edits of sgml (gone_too).
`tests/gone.c`, `tests/boundary.c`, `gone.rs`; vectors type/folded, no-such.
END
cat >"$out/wrong.expected" <<'END'
1: gone is not defined in crate turn_laws
1: gone_not is not defined in any
2: find is not defined in crate element_names
2: gone is not defined in crate element_index
2: gone is not defined in crate element_names
2: gone is not defined in crate type_stage
3: Read is not defined in file crates/rules/specs/Judge.antt
3: gone is not defined in part Refuses
3: gone_here is not defined in any
3: gone_here is not defined in file crates/demands/specs/Demands.antt
4: there is no crates/gaps/must-fail/gone_edit.edit
4: there is no crates/sgml/must-fail/gone_too.edit
4: there is no crates/text/must-fail/gone.edit
5: there is no tests/gone.c
5: there is no tests/oracle/gone.rs
5: there is no tests/vectors/type/no-such
END
passed=0 failed=0
echo "names that are wrong"
faults "$out/wrong.md" | sed 's/^[^:]*://' | sort >"$out/wrong.found"
if diff "$out/wrong.found" "$out/wrong.expected"; then passed=1; else failed=1; fi
all_failed=$failed
echo "$passed passed, $failed failed"

echo "names in the documents"
count() {
    sed 's/^/failed: /' "$out/faults"
    failed=$((failed + $(wc -l <"$out/faults")))
    passed=$((passed + $1 - $(wc -l <"$out/faults")))
}
passed=0 failed=0
faults docs/PROMISES.md docs/DECISIONS.md docs/ARCHITECTURE.md >"$out/faults"
count "$(wc -l <"$out/said")"
faults README.md | sed '/ is not defined in any$/d' >"$out/faults"
count "$(grep -cv '	any$' "$out/said")"
for crate in $(sed -n 's/^\([a-z_]*\)\( staticlib\)*:.*/\1/p' crates.txt); do
    if grep -q "\`\(crates/\)*$crate\`" docs/ARCHITECTURE.md; then
        passed=$((passed + 1))
    else
        failed=$((failed + 1))
        echo "failed: docs/ARCHITECTURE.md does not name the crate $crate"
    fi
done
echo "$passed passed, $failed failed"
[ $((failed + all_failed)) -eq 0 ]
