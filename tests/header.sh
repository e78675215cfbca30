# The header as C and C++, its helpers, the programs that stand in header and README, taken from there as they are and run with little
# memory, and what README says that can be run or counted.
set -eu
cd "$(dirname "$0")/.."
export LC_ALL=C
. tests/tools
out=$PWD/target/tests/header
rm -rf "$out"
mkdir -p "$out"
{ built && make; } >"$out/make.log" 2>&1 || { cat "$out/make.log"; exit 1; }
strict="-Wall -Wextra -pedantic -Werror"
library=$PWD/target/staticlib/libsgml.a
passed=0 failed=0 all_failed=0

# check WHAT COMMAND..: the command succeeds.
check() {
    local what=$1
    shift
    if "$@"; then
        passed=$((passed + 1))
    else
        failed=$((failed + 1))
        echo "failed: $what"
    fi
}

# told: the last line of a part.
told() {
    echo "$passed passed, $failed failed"
    all_failed=$((all_failed + failed))
    passed=0 failed=0
}

echo "the headers as C and as C++, with every warning that is asked for"
for header in include/*.h; do
    header=${header#include/}
    # each stands by itself, and the macro of sgml.h is free of warnings where it is used
    printf '%s\n' '#define SGML_WITH_MALLOC' "#include \"$header\"" '#include "sgml.h"' 'size_t most(size_t n);' \
        'size_t most(size_t n) { return SGML_EVENT_BYTES * SGML_MOST_EVENTS(n); }' >"$out/header.c"
    for standard in c99 c11; do
        check "$header as $standard" cc -std=$standard $strict -Wconversion -Iinclude -c "$out/header.c" -o "$out/header.o"
    done
    if needs c++ g++ "$header as C++"; then
        for standard in c++98 c++11 c++17; do
            check "$header as $standard" c++ -std=$standard $strict -Wold-style-cast -Wconversion -Iinclude -x c++ -c "$out/header.c" -o "$out/header.o"
        done
    fi
done
told

echo "the helpers of the header, on every event and every number"
cc -std=c99 $strict -g -Iinclude tests/helpers.c "$library" -o "$out/helpers"
cc -std=c99 $strict -g -fsanitize=address,undefined -fno-sanitize-recover=all -Iinclude tests/helpers.c "$library" -o "$out/helpers.sanitized"
"$out/helpers"
check "with sanitizers" "$out/helpers.sanitized" >"$out/sanitized.txt"
if needs valgrind valgrind "the helpers under valgrind"; then
    check "under valgrind" valgrind -q --error-exitcode=9 "$out/helpers" >"$out/valgrind.txt"
fi
told

echo "the program that stands in header and README, as it is"
sed -n '/^```c$/,/^```$/{/^```/d;p}' README.md >"$out/sample.c"
awk '/^ \*     #define SGML_WITH_MALLOC/ { on = 1 } on { print substr($0, 8) } on && /^ \*     }$/ { exit }' include/sgml.h >"$out/header-sample.c"
check "both are one text" diff "$out/sample.c" "$out/header-sample.c"
check "it compiles" cc -std=c99 $strict -Iinclude "$out/sample.c" "$library" -o "$out/sample"
if needs c++ g++ "the program as C++"; then
    check "as C++ too" c++ $strict -Iinclude -x c++ "$out/sample.c" -x none "$library" -o "$out/sample++"
fi
# documents of 65 KB, good and with a fault at its end; one of 10 MB; one of 50 KB with events of 184 MB
printf clamp >"$out/small.sgm"
{ for _ in $(seq 2599); do printf '<ITEM>clamp<QTY>40 pieces'; done; } >"$out/good.sgm"
{ cat "$out/good.sgm"; printf '</BOX>'; } >"$out/bad.sgm"
head -c 10000000 /dev/zero | tr '\0' x >"$out/huge.sgm"
{ echo '<!ELEMENT E0 O O (E1+)>'
  for k in $(seq 22); do echo "<!ELEMENT E$k O O (E$((k + 1)))>"; done
  echo '<!ELEMENT E23 O O (#PCDATA)>'
  for k in $(seq 22); do printf '<!ATTLIST E%d' "$k"; for a in $(seq 40); do printf ' A%d CDATA ""' "$a"; done; echo '>'; done; } >"$out/deep.type"
for _ in $(seq 10000); do printf '<E1>x'; done >"$out/deep.sgm"
# limited STATUS ERROR PROGRAM FILE..: with 100,000 KB of memory the program ends so, and says this on standard error.
limited() {
    local status=0
    (ulimit -v 100000 && "${@:3}") >"$out/stdout" 2>"$out/stderr" || status=$?
    [ "$status" -eq "$1" ] && [ "$(cat "$out/stderr")" = "$2" ] || { echo "ended with $status: $(cat "$out/stderr")"; return 1; }
}
for sample in "$out"/sample "$out"/sample++; do
    [ -x "$sample" ] || continue
    check "a small document" limited 0 "" "$sample" examples/stock.type "$out/small.sgm"
    check "its events" test "$(tr '\n' ' ' <"$out/stdout")" = "2 1 0 0 0 2 2 0 0 1 2 3 0 0 1 5 0 0 5 0 4 3 5 0 0 4 2 5 0 0 4 1 5 0 0 "
    check "a catalogue of 65 KB" limited 0 "" "$sample" examples/stock.type "$out/good.sgm"
    check "its events" test "$(wc -l <"$out/stdout")" -eq 20794
    check "a refused one" limited 1 "a tag or attribute list of an undeclared element at byte 64975 of the document" "$sample" examples/stock.type "$out/bad.sgm"
    check "nothing is printed of it" test ! -s "$out/stdout"
    check "10 MB" limited 1 "longer than the limit at byte 0 of the document" "$sample" examples/stock.type "$out/huge.sgm"
    check "a type of 10 MB" limited 1 "longer than the limit at byte 0 of the type file" "$sample" "$out/huge.sgm" "$out/good.sgm"
    check "more events than there is memory" limited 1 "the lent buffer is too small at byte 0 of the document" "$sample" "$out/deep.type" "$out/deep.sgm"
    check "no file" limited 2 "two files that can be read are needed: a type file and a document" "$sample" examples/stock.type nowhere
done
told

echo "a program that was compiled with a header of another binary interface does not link"
number=$(sed -n 's/^#define SGML_ABI \([0-9]*\)$/\1/p' include/sgml.h)
exported=$(nm "$library" 2>/dev/null | awk '$2 == "T" { print $3 }' | sort | tr '\n' ' ')
check "the library exports the four calls under the number of the header" \
    test "$exported" = "sgml_attributes_abi$number sgml_judge_abi$number sgml_read_abi$number sgml_read_batch_abi$number "
mkdir "$out/other"
# unlinked WHAT SYMBOL: what was compiled with the header in other/ does not link, and the linker names this symbol.
unlinked() {
    check "with the header $1: it compiles" cc -std=c99 $strict -I"$out/other" -c "$out/sample.c" -o "$out/other/sample.o"
    if cc "$out/other/sample.o" "$library" -o "$out/other/sample" 2>"$out/other/linker"; then
        check "with the header $1: it links" false
    fi
    check "with the header $1: what is undefined" grep -q "undefined reference to .$2'" "$out/other/linker"
}
cp include/sgml.h "$out/other/sgml.h"
check "with this one it links" cc -std=c99 $strict -I"$out/other" "$out/sample.c" "$library" -o "$out/other/sample"
sed '/^#define sgml_/d' include/sgml.h >"$out/other/sgml.h"
unlinked "of a version before 0.9.0" sgml_read
sed "s/_abi$number/_abi$((number + 1))/" include/sgml.h >"$out/other/sgml.h"
unlinked "of a later interface" "sgml_read_abi$((number + 1))"
told

echo "the shorter pieces of code in the header"
# piece N: the N-th of them, which stand behind the program.
piece() {
    awk -v wanted="$1" '/^#ifndef SGML_H/ { exit } /^ \*     }$/ { behind = 1; next } !behind { next }
        /^ \*         / { if (!on) n++; on = 1; if (n == wanted) print substr($0, 12); next } { on = 0 }' include/sgml.h
}
# runs WHAT EXPECTED: the C program on standard input compiles, and prints this.
runs() {
    { printf '%s\n' '#define _GNU_SOURCE' '#include "sgml.h"' '#include <pthread.h>' '#include <stdio.h>'; cat; } >"$out/piece.c"
    check "$1 compiles" cc -std=c99 $strict -Iinclude "$out/piece.c" "$library" -lpthread -o "$out/piece"
    check "$1 runs" test "$("$out/piece")" = "$2"
}
settings="uint32_t answer[SGML_ANSWER_SIZE]; size_t type_len = sizeof type - 1;"
attributes="static const uint8_t type[] = \"<!ELEMENT A O O (#PCDATA)><!ATTLIST A PAR NUMBER '40' N CDATA #IMPLIED>\";"
runs "a buffer without malloc" "0 4" < <(echo "$attributes static const uint8_t document[] = \"clamp\";"
  echo "int main(void) { $settings size_t document_len = 5;"
  piece 1
  echo 'printf("%u %u\n", (unsigned)number, (unsigned)answer[SGML_ANSWER_COUNT]); return 0; }')
runs "a thread with its stack" "read" < <(echo "$attributes static const uint8_t document[] = \"clamp\"; static uint8_t events[1000];"
  echo "static void *function(void *argument) { $settings"
  echo 'if (!sgml_read(type, type_len, document, 5, events, 1000, answer, SGML_NAMELEN, SGML_FIRST_EDITION)) { puts(argument); }'
  echo 'return NULL; }'
  echo 'int main(void) { pthread_attr_t attributes; pthread_t thread; char argument[] = "read";'
  piece 2
  echo 'pthread_join(thread, NULL); return 0; }')
runs "names and values of attributes" "PAR=40
N=x y" < <(echo "$attributes static const uint8_t document[] = \"<A N='x y'>clamp\"; static uint8_t events[1000], attributes[1000];"
  echo "int main(void) { $settings size_t attribute_count, count, k;"
  echo 'if (sgml_attributes(type, type_len, attributes, 1000, answer, SGML_NAMELEN, SGML_FIRST_EDITION)) return 1;'
  echo 'attribute_count = answer[SGML_ANSWER_COUNT];'
  echo 'if (sgml_read(type, type_len, document, sizeof document - 1, events, 1000, answer, SGML_NAMELEN, SGML_FIRST_EDITION)) return 1;'
  echo 'count = answer[SGML_ANSWER_COUNT]; for (k = 0; k < count; k++) { struct sgml_event e = sgml_event_at(events, k);'
  piece 3
  echo '} return 0; }')
runs "a batch" "0 8
10 0" < <(echo "$attributes static const uint8_t string[] = \"clamp</B>\"; static uint8_t buffer[10000]; static size_t a_len = 5, b_len = 4;"
  echo 'static void use(const uint32_t *answer, const uint8_t *events) { printf("%u %u\n", (unsigned)answer[0], (unsigned)events[0]); }'
  echo "int main(void) { $settings size_t k;"
  piece 4
  echo 'return 0; }')
check "there are no others" test -z "$(piece 5)"
told

echo "README's worked example, and its counts"
# The commands behind "$ " in the worked example print what stands under them.
awk '/^## / { on = /worked example/ } on && /^    / { print substr($0, 5) }' README.md >"$out/example"
grep '^\$ ' "$out/example" | sed 's/^\$ //' >"$out/commands"
check "it has commands" test "$(wc -l <"$out/commands")" -ge 4
mkdir "$out/example.d"
(cd "$out/example.d" && PATH=$OLDPWD/target:$PATH && while IFS= read -r command; do
    printf '$ %s\n' "$command"
    bash -c "$command" 2>&1 || true
done) <"$out/commands" >"$out/example.printed"
check "the worked example" diff "$out/example.printed" "$out/example"
# number N: with a comma, as README writes it. near N LIMIT: the number that README says is off by a twentieth at most.
number() { echo "$1" | sed 's/\([0-9]\)\([0-9]\{3\}\)$/\1,\2/'; }
says() { grep -q "$1" README.md || { echo "README does not say: $1"; return 1; }; }
near() { [ $((20 * $1)) -le $((21 * $2)) ] && [ $((21 * $1)) -ge $((20 * $2)) ] || { echo "README says $1, counted: $2"; return 1; }; }
# counted TEXT: the number that README has behind it.
counted() { sed -n "s/.*$1some \([0-9]*\).*/\1/p" README.md | head -1; }
said() { sed -n "s/.*$1, some \([0-9,]*\) lines.*/\1/p" README.md | tr -d , | head -1; }
check "vectors" says " $(number "$(ls -d tests/vectors/*/*/ | wc -l)") vectors"
plain=0
for v in tests/vectors/*/*/; do [ -s "$v/args" ] || plain=$((plain + 1)); done
check "vectors of the small program" says "on the $plain vectors"
check "must-fail edits" near "$(counted 'that must fail, ')" "$(find crates/*/must-fail -mindepth 1 -maxdepth 1 | wc -l)"
check "lines of the rules" near "$(said '.crates.rules.specs.')" "$(cat crates/rules/specs/*.antt | wc -l)"
# The crates that the library is made of: sgml, and all that it stands on.
crates=$(sed 's/#.*//' crates.txt | awk -F: 'NF > 1 { gsub(/ /, "", $1); needs[$1] = $2; known[$1] = 1 }
    END { todo = "sgml"; found["sgml"] = 1
        while (todo != "") { split(todo, c, " "); next_todo = ""
            for (i in c) { split(needs[c[i]], d, " "); for (j in d) if (known[d[j]] && !found[d[j]]) { found[d[j]] = 1; next_todo = next_todo " " d[j] } }
            todo = next_todo; split("", c) }
        n = 0; for (k in found) n++; print n }')
check "crates of the library" near "$(counted 'crates of the library, ')" "$crates"
told

echo "the commits that CHANGELOG.md names have the versions that it says"
if git cat-file -e "$(sed -n 's/^Commit \([0-9a-f]*\)\.$/\1/p' CHANGELOG.md | tail -1)" 2>/dev/null; then
    while read -r version commit; do
        # the first version had no number in the header
        own=$(git show "$commit:include/sgml.h" 2>/dev/null | sed -n 's/^#define SGML_VERSION "\(.*\)"/\1/p')
        check "$version is at $commit" test "${own:-0.1.0}" = "$version"
    done < <(awk '/^## / { version = $2; sub(/,/, "", version) } /^Commit / { sub(/\./, "", $2); print version, $2 }' CHANGELOG.md)
else
    echo "skipped: the commits of CHANGELOG.md, since this is no clone with all of them"
fi
told
[ "$all_failed" -eq 0 ]
