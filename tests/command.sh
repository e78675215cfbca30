# The C boundary, the example controller, the command and what `make install` gives, all over the proved library.
set -eu
cd "$(dirname "$0")/.."
export LC_ALL=C
. tests/tools
out=target/tests/command
rm -rf "$out"
mkdir -p "$out"
# make goes by the files' times; what the library is, rt decides
{ built && make; } >"$out/make.log" 2>&1 || { cat "$out/make.log"; exit 1; }
strict="-Wall -Wextra -pedantic -Werror"
library=target/staticlib/libsgml.a
passed=0 failed=0 all_failed=0

# check WHAT COMMAND..: the command succeeds.
check() {
    local what=$1
    shift
    if "$@"; then
        passed=$((passed + 1))
    else
        failed=$((failed + 1))
        echo "failed: $what"
    fi
}

# ran COMMAND..: its status, and its output in stdout and stderr.
ran() {
    status=0
    "$@" >"$out/stdout" 2>"$out/stderr" || status=$?
}

# is_silent STATUS TEXT: what ran ended so, printed nothing, and said this on standard error first.
is_silent() { [ "$status" -eq "$1" ] && [ ! -s "$out/stdout" ] && [ "$(head -1 "$out/stderr")" = "$2" ]; }

# ends STATUS TEXT COMMAND..
ends() {
    ran "${@:3}"
    check "${*:3}: ended with $status, $(head -1 "$out/stderr")" is_silent "$1" "$2"
}

# clean COMMAND..: it ends with status 0 and says nothing on standard error.
clean() {
    ran "$@"
    check "$*: ended with $status, $(cat "$out/stderr") $(head -3 "$out/stdout")" test "$status" -eq 0 -a ! -s "$out/stderr"
}

# told: the last line of a part.
told() {
    echo "$passed passed, $failed failed"
    all_failed=$((all_failed + failed))
    passed=0 failed=0
}

# is_refusal WHERE NUMBER: what ran ended with 1, printed nothing, and told of a refusal there by that number.
is_refusal() {
    local line
    line=$(head -1 "$out/stderr")
    [[ $status -eq 1 && ! -s $out/stdout && $line == "$1: "?*" [$2]" ]]
}

# refuses WHERE NUMBER COMMAND..
refuses() {
    ran "${@:3}"
    check "${*:3}: ended with $status, $(head -1 "$out/stderr")" is_refusal "$1" "$2"
}

echo "the boundary in C: plain, with sanitizers, under valgrind"
for p in boundary boundary_read; do
    cc -std=c99 $strict -g -Iinclude "tests/$p.c" $library -o "$out/$p"
    cc -std=c99 $strict -g -fsanitize=address,undefined -fno-sanitize-recover=all -Iinclude "tests/$p.c" $library -o "$out/$p.sanitized"
    clean "$out/$p"
    clean "$out/$p.sanitized"
    clean "$out/$p.sanitized" bare
    if needs valgrind valgrind "the boundary under valgrind"; then
        clean valgrind -q --error-exitcode=9 "$out/$p" bare
    fi
done
told

echo "the fuzz target, for a few seconds"
check "libFuzzer" tests/fuzz/run 4
check "the driver" tests/fuzz/run 2 driver
told

echo "the controller on its samples"
# counted WORD..: the controller's output and status, under its arguments.
counted() {
    echo "$*:"
    ran target/controller "$@"
    cat "$out/stdout" "$out/stderr"
    echo "status $status"
}
{
    for c in examples/catalogues/*.cat; do counted examples/cabinet.type "$c"; done
    for c in unnumbered par kits; do counted "examples/$c.type" "examples/$c.cat"; done
    c=examples/catalogues
    counted examples/cabinet.type $c/few-tags.cat nowhere $c/cut-short.cat $c/quantity-empty.cat $c/larger.cat
} >"$out/controller.txt"
check "the controller prints what is expected" diff "$out/controller.txt" examples/controller.expected
controller="target/controller examples/cabinet.type examples/catalogues"
ends 2 "usage: controller [--edition N] [--name-length N] TYPE CATALOGUE.." target/controller
ends 2 "controller: unknown option: --editions" target/controller --editions 2 a b
ends 2 "controller: --edition takes a number from 1 to 2" target/controller --edition 3 a b
ends 2 "controller: --name-length takes a number from 8 to 32" target/controller --name-length 7 a b
ends 2 "controller: examples/catalogues: Is a directory" $controller
ends 2 "controller: standard output: Bad file descriptor" bash -c "$controller/few-tags.cat >&-"
ends 2 "controller: standard output: No space left on device" bash -c "$controller/end-tag-too-many.cat >/dev/full"
# a catalogue of 65,527 bytes with 37,039 events, thirteen to a drawer and two more
for i in $(seq 2849); do printf '<DRAWER>1<ITEM>x<QTY>1\n'; done >"$out/full.cat"
ran target/controller examples/cabinet.type "$out/full.cat"
printf '%s\n' "drawer      items    counted       pieces" "     1       2849       2849         2849" "   all       2849       2849         2849" >"$out/full"
check "the controller on a full catalogue" diff "$out/stdout" "$out/full"
ran target/controller examples/two-drawers.type examples/catalogues/few-tags.cat
check "both places of an ambiguous model" test "$status,$(head -1 "$out/stdout")" = "1,examples/two-drawers.type:2:27: an ambiguous content model: this ITEM, place 2, or ITEM at 2:21, place 1"
printf '<!ELEMENT LIST O O (THING+)><!ELEMENT THING - O (#PCDATA)>' >"$out/things.type"
ran target/controller "$out/things.type" examples/par.cat
check "a type without ITEM" test "$status,$(cat "$out/stdout")" = \
    "1,$out/things.type: this type declares no element ITEM, so there is nothing to count"
printf '<!ELEMENT ITEM - O (NAME,QTY?)><!ELEMENT NAME - O (#PCDATA|TRADENAME)>' >"$out/trade.type"
printf '<!ELEMENT TRADENAME - O (#PCDATA)><!ELEMENT QTY - O (#PCDATA)>' >>"$out/trade.type"
printf '<ITEM><NAME>\r\n<TRADENAME>clamp<QTY>40' >"$out/trade.cat"
for options in "" "--edition 2" "--name-length 9"; do
    ran target/controller $options "$out/trade.type" "$out/trade.cat"
    check "the controller with ${options:-no option}" test "$status" -eq 1
done
ran target/controller --name-length 9 --edition 2 "$out/trade.type" "$out/trade.cat"
check "the controller with an edition and a length of names" test "$status,$(tail -1 "$out/stdout")" = \
    "0,   all          1          1           40"
ran target/controller examples/cabinet.type $(printf 'examples/catalogues/few-tags.cat %.0s' $(seq 201))
check "more catalogues than one call takes" test "$status,$(grep -c '^   all          3 ' "$out/stdout")" = 0,201
told

# Where a byte of a file stands, as FILE:LINE:COLUMN.
place() {
    local line column
    line=$(($(head -c "$2" "$1" | wc -l) + 1))
    column=$(($(head -c "$2" "$1" | tail -n "+$line" | wc -c) + 1))
    echo "$1:$line:$column"
}

# is_same STATUS FILE: what ran ended so and printed the file.
is_same() { [ "$status" -eq "$1" ] && cmp -s "$out/stdout" "$2"; }

echo "the command, with sanitizers, on the vectors"
sanitized=$out/sgml
cc -std=c99 $strict -g -fsanitize=address,undefined -fno-sanitize-recover=all -Iinclude command/*.c $library -o "$sanitized"
for v in tests/vectors/*/*; do
    read -r word number _ input _ position <"$v/expected"
    names=$(sed -n 's/^namelen /--name-length /p; s/^edition /--edition /p' "$v/args" 2>/dev/null || true)
    case $word,$number,$input in
    events,*)
        ran "$sanitized" $names "$v/type.sgm" "$v/doc.sgm"
        check "$v" is_same 0 "$v/expected"
        ;;
    refused,19,*)
        ran "$sanitized" $names "$v/type.sgm" "$v/doc.sgm"
        check "$v: the command's own buffer grows" grep -q '^events ' "$out/stdout"
        ;;
    refused,24,*)
        ran "$sanitized" $names "$v/type.sgm" "$v/doc.sgm"
        check "$v: a misuse" test "$status" -eq 2 -a ! -s "$out/stdout"
        ;;
    refused,*,type) refuses "$(place "$v/type.sgm" "$position")" "$number" "$sanitized" $names "$v/type.sgm" "$v/doc.sgm" ;;
    *) refuses "$(place "$v/doc.sgm" "$position")" "$number" "$sanitized" $names "$v/type.sgm" "$v/doc.sgm" ;;
    esac
    ran "$sanitized" $names --answer "$v/type.sgm" "$v/doc.sgm"
    check "$v by --answer" is_same "$([ "$word" = refused ] && echo 1 || echo 0)" "$v/expected"
    # the place is the last of the numbers of an event
    [ -e "$v/numbers" ] || continue
    { echo "events $number"; tail -n +2 "$v/expected" | paste -d ' ' - <(sed 's/.* //' "$v/numbers"); } >"$out/places"
    ran "$sanitized" $names --answer --places "$v/type.sgm" "$v/doc.sgm"
    check "$v by --answer --places" is_same 0 "$out/places"
    ran "$sanitized" $names --places "$v/type.sgm" "$v/doc.sgm"
    check "$v by --places" is_same 0 "$out/places"
done
told

echo "the output form of onsgmls"
note=tests/command/note.type
escapes=tests/command/escapes.sgm
target/sgml "$note" "$escapes" >"$out/escapes.events"
check "events of $escapes" diff "$out/escapes.events" tests/command/escapes.events
target/sgml --esis "$note" "$escapes" >"$out/escapes.esis"
check "--esis of $escapes" diff "$out/escapes.esis" tests/command/escapes.esis

# agree TYPE DOCUMENT [OPTION..]: onsgmls prints the same. It takes byte 13 for the end of a record and byte 10 for the start of one.
agree() {
    local element
    target/sgml --esis "${@:3}" "$1" "$2" >"$out/esis" || return 1
    element=$(sed -n 's/^(//p' "$out/esis" | head -n 1)
    { printf '<!DOCTYPE %s [' "$element"; cat "$1"; printf ']>'; cat "$2"; } >"$out/whole.sgm"
    onsgmls -w no-all "<OSFILE RECORDS=ASIS>$out/whole.sgm" 2>"$out/stderr" | diff -q - "$out/esis" >/dev/null
}
if needs onsgmls opensp "onsgmls on the same documents"; then
    check "onsgmls on $escapes" agree "$note" "$escapes"
    check "onsgmls on par levels" agree examples/par.type examples/par.cat
    for c in all-tags few-tags larger; do
        check "onsgmls on $c" agree examples/cabinet.type "examples/catalogues/$c.cat"
    done
    for v in tests/vectors/*/*; do
        # onsgmls has short tags, and ignores a record end at the start and end of an element.
        case $v in
        */bare-marks | */02-7-places/g34) continue ;;
        */02-1-attributes/g04 | */02-1-attributes/g38 | */mixed/165 | */return-is-data | */02-7-places/g19 | */02-7-places/g22 | */02-7-places/g31 | */02-7-places/g35 | */02-7-places/g38) continue ;;
        esac
        # It infers no start of a member of an "&" group, and takes a separator for data where #PCDATA may not come next.
        case $v in
        */and-with-defaults | */02-12-and/required-0[2358] | */02-12-and/required-1[13789] | */02-12-and/required-20) continue ;;
        */02-12-and/required-inferred-chain | */02-12-and/g22 | */02-12-and/mixed-04) continue ;;
        esac
        # It infers no start of the last member of an "&" group, and takes a separator for data where `#PCDATA` may not come next (LastMember and
        # Separator of docs/DECISIONS.md).
        case $v in
        */02-12-and/required-0[2358] | */02-12-and/required-1[13789] | */02-12-and/required-20 | */02-12-and/required-inferred-chain) continue ;;
        */and/inner-last-member | */and/last-member-inferred) continue ;;
        */02-12-and/g22 | */02-12-and/mixed-04) continue ;;
        esac
        # A record end that it ignores by what came before has still taken the place of #PCDATA there; "the other two kinds take no place" (docs/DECISIONS.md).
        case $v in */02-8-records/g03 | */02-8-records/g31 | */02-8-records/place-document-element-first | */02-8-records/place-first | */02-8-records/place-markup) continue ;; esac
        # It is given no declaration with another NAMELEN here, and reads record ends as edition 2 does.
        edition=
        case $v in */02-8-records/*) grep -qsx 'edition 2' "$v/args" && edition="--edition 2" || continue ;; esac
        ! grep -qs '^namelen' "$v/args" || continue
        [ "$(head -c 6 "$v/expected")" != events ] || check "onsgmls on $v" agree "$v/type.sgm" "$v/doc.sgm" $edition
    done
fi
told

echo "the command's options, standard input, and misuse"
sgml=${SGML:-target/sgml} # another build, to see that a test fails there
type=examples/cabinet.type
few=examples/catalogues/few-tags.cat
head -c 70000 /dev/zero | tr '\0' x >"$out/long"
cp $type "$out/--check"
ends 0 "" $sgml --check $type $few
ends 0 "" $sgml $type --check -- $few
ends 0 "" bash -c "$sgml --check $type - <$few"
ends 0 "" bash -c "$sgml --check - $few <$type"
ends 0 "" bash -c "$sgml --check $type $few >&-"
ends 0 "" bash -c "cd $out && ../../sgml --check -- --check ../../../$few"
ends 0 "" $sgml --check -q $type $few examples/catalogues/larger.cat
ends 0 "" $sgml --check $type
here="<stdin>:1:7: <QTY> is not allowed here: <NAME> may be missing before it; LIST (begun at 1:1) is not complete; here may come <ITEM>, <NAME> or data [12]"
ends 1 "$here" bash -c "printf '<LIST><QTY>' | $sgml examples/stock.type -"
check "the line with a caret" test "$(tail -n +2 "$out/stderr")" = "<LIST><QTY>
      ^"
ends 1 "$here" bash -c "printf '<LIST><QTY>' | $sgml --esis examples/stock.type -"
ends 1 "$here" bash -c "printf '<LIST><QTY>' | $sgml -q --check examples/stock.type -"
check "-q prints one line" test "$(wc -l <"$out/stderr")" -eq 1
open="<stdin>:1:17: the document ends within the comment that began at 1:7 and has no \">\" [4]"
ends 1 "$open" bash -c "printf '<LIST><!-- a -- ' | $sgml -q --check examples/stock.type -"
two="examples/two-drawers.type:2:27: this content model is ambiguous: ITEM may be this one, place 2, or ITEM at 2:21, place 1 [9]"
ends 1 "$two" $sgml --check examples/two-drawers.type $few
ends 1 "$two" $sgml --check examples/two-drawers.type
ends 1 "$two" $sgml -q examples/two-drawers.type $few $few $few
check "a refused type is reported once" test "$(wc -l <"$out/stderr")" -eq 1
ends 1 "$out/long:1:1: this document has more than 65535 bytes [1]" $sgml $type "$out/long"
ends 1 "$out/long:1:1: this type file has more than 32768 bytes [1]" $sgml "$out/long" $few
ends 1 "<stdin>:1:1: this document has more than 65535 bytes [1]" bash -c "$sgml $type - <$out/long"
# the length of names
printf '<!ELEMENT ABCDEFGHI - O (#PCDATA)>' >"$out/nine.type"
printf '<ABCDEFGHI>x' >"$out/nine.sgm"
ends 0 "" $sgml --check --name-length 9 "$out/nine.type" "$out/nine.sgm"
ends 0 "" $sgml --name-length 32 --check "$out/nine.type"
ends 1 "$out/nine.type:1:11: ABCDEFGHI has 9 bytes, and a name has at most 8 [3]" $sgml "$out/nine.type" "$out/nine.sgm"
for length in 0 7 33 4294967295 99999999999999999999; do
    number=$length
    [ ${#length} -lt 12 ] || number=4294967295
    ends 2 "sgml: --name-length takes a number from 8 to 32, not $number" $sgml --name-length $length $type $few
    ends 2 "sgml: --name-length takes a number from 8 to 32, not $number" $sgml --check --name-length $length $type
    ends 2 "sgml: --name-length takes a number from 8 to 32, not $number" $sgml --batch --name-length $length $type $few
    # the small program hands it to the library as it is
    ran $sgml --answer --name-length $length $type $few
    check "--answer --name-length $length" test "$status,$(cat "$out/stdout")" = "1,refused 24 in type at 0"
done
for word in x 9x -9 " 9"; do
    ends 2 "sgml: --name-length takes a number from 8 to 32, not $word" $sgml --check $type --name-length "$word"
    ends 2 "sgml: --name-length takes a number from 8 to 32, not $word" $sgml --check $type "--name-length=$word"
done
ends 2 "sgml: --name-length takes a number from 8 to 32, not nothing" $sgml --check $type --name-length ""
ends 2 "sgml: --name-length takes a number from 8 to 32, not nothing" $sgml --check $type --name-length
# the edition
printf '<!ELEMENT P - O (#PCDATA)>' >"$out/record.type"
printf '<P>\r\nclamp\r\n</P>' >"$out/record.sgm"
ran $sgml --edition 2 "$out/record.type" "$out/record.sgm"
check "record ends in edition 2" test "$(sed -n 3p "$out/stdout")" = "5 - 5 5"
for option in "" "--edition 1"; do
    ran $sgml $option "$out/record.type" "$out/record.sgm"
    check "record ends in edition 1" test "$(sed -n 4p "$out/stdout")" = "5 - 5 6"
done
for edition in 0 3 4294967295 99999999999999999999; do
    number=$edition
    [ ${#edition} -lt 12 ] || number=4294967295
    ends 2 "sgml: --edition takes 1 or 2, not $number" $sgml --edition $edition $type $few
    ends 2 "sgml: --edition takes 1 or 2, not $number" $sgml --check --edition=$edition $type
    ran $sgml --answer --edition $edition $type $few
    check "--answer --edition $edition" test "$status,$(cat "$out/stdout")" = "1,refused 24 in type at 0"
done
for word in x 2x -2; do
    ends 2 "sgml: --edition takes 1 or 2, not $word" $sgml --check $type --edition "$word"
done
ends 2 "sgml: --edition takes 1 or 2, not nothing" $sgml --check $type --edition
ends 2 "sgml: missing operands: TYPE and DOCUMENT" $sgml
ends 2 "sgml: missing operand: DOCUMENT" $sgml $type
ends 2 "sgml: missing operand: DOCUMENT" $sgml --answer $type
ends 2 "sgml: unknown option: --verify" $sgml --verify $type $few
ends 2 "sgml: unknown option: --editions=2" $sgml --editions=2 $type $few
ends 2 "sgml: unknown option: -x" $sgml -x $type $few
ends 2 "sgml: --esis, --check, -s, --answer and --batch exclude each other" $sgml --esis --check $type $few
ends 2 "sgml: --esis, --check, -s, --answer and --batch exclude each other" $sgml --answer --check $type $few
ends 2 "sgml: --esis, --check, -s, --answer and --batch exclude each other" $sgml --answer --batch $type $few
$sgml --batch $type $few $few >"$out/batch.txt" 2>"$out/stderr" || true
{ for _ in 1 2; do echo "== $few"; $sgml --answer $type $few || true; done; } >"$out/batch.expected" 2>"$out/stderr"
check "a batch prints of each its name and what --answer prints" diff "$out/batch.txt" "$out/batch.expected"
ends 2 "sgml: --places adds to the lines of events, and --esis, --check and -s print none" $sgml --places --esis $type $few
ends 2 "sgml: --places adds to the lines of events, and --esis, --check and -s print none" $sgml --check --places $type $few
ends 2 "sgml: only one file can be standard input" $sgml - -
ends 2 "sgml: only one file can be standard input" $sgml $type - $few -
ends 2 "sgml: examples: Is a directory" $sgml $type examples
ends 2 "sgml: examples: Is a directory" $sgml examples $few
ends 2 "sgml: nowhere: No such file or directory" $sgml $type nowhere
ends 2 "sgml: <stdin>: Bad file descriptor" bash -c "$sgml $type - <&-"
ends 2 "sgml: standard output: Bad file descriptor" bash -c "$sgml $type $few >&-"
ends 2 "sgml: standard output: Bad file descriptor" bash -c "$sgml --esis $type $few >&-"
ends 2 "sgml: standard output: Bad file descriptor" bash -c "$sgml --help >&-"
ends 2 "sgml: standard output: No space left on device" bash -c "$sgml $type $few >/dev/full"
ends 2 "sgml: standard output: No space left on device" bash -c "$sgml --answer $type $few >/dev/full"
for option in -h --help; do
    ran $sgml $option
    check "$option" grep -q "^usage: sgml" "$out/stdout"
done
ran $sgml --version
version=$(sed -n 's/^.define SGML_VERSION "\(.*\)"/\1/p' include/sgml.h)
check "--version" grep -qx "sgml $version" "$out/stdout"

# several documents, each with its own result
short=examples/catalogues/cut-short.cat
ran $sgml $type $few $short nowhere $few
{ echo "$few:"; $sgml $type $few; echo "$short:"; echo "$few:"; $sgml $type $few; } >"$out/several"
check "several documents: the output" diff "$out/stdout" "$out/several"
check "several documents: status 2 if one could not be read" test "$status" -eq 2
check "several documents: the refusal" grep -q "^$short:4:1: the document ends, but ITEM (begun at 3:1) is not complete: <NAME> is missing" "$out/stderr"
check "several documents: the missing one" grep -qx "sgml: nowhere: No such file or directory" "$out/stderr"
ran $sgml --check $type $few $short $few
check "several documents: status 1 if one is refused" test "$status" -eq 1 -a ! -s "$out/stdout"

ran $sgml -q --check "$out/missing" $few
check "a type file that cannot be read" is_silent 2 "sgml: $out/missing: No such file or directory"

# a catalogue of 37,039 events is accepted in a batch too, and one unreadable file silences no other
ran $sgml --batch $type nowhere "$out/full.cat" $short $few
{ echo "== $out/full.cat"; $sgml $type "$out/full.cat"; echo "== $short"; $sgml --answer $type $short || true; echo "== $few"; $sgml $type $few; } >"$out/batch.expected"
check "a batch lends what is needed" diff "$out/stdout" "$out/batch.expected"
check "a batch: status 2 if one could not be read" test "$status" -eq 2
printf '%s\n' "sgml: nowhere: No such file or directory" "$short:4:1: the document ends, but ITEM (begun at 3:1) is not complete: <NAME> is missing; here may come <NAME> or data [13]" >"$out/batch.expected"
check "a batch: refusals have line, column and text" diff <(head -2 "$out/stderr") "$out/batch.expected"
# 250 documents: --check and --esis make batches of 200 of them, and --batch refuses them
many=$(for i in $(seq 248); do echo $few; done)
ran $sgml --check -q $type $short $many $short
check "250 documents by --check" test "$status,$(wc -l <"$out/stderr"),$(grep -c "^$short:4:1: " "$out/stderr")" = 1,2,2
ran $sgml --esis $type $many $few $few
for i in $(seq 250); do $sgml --esis $type $few; done >"$out/many.esis"
check "250 documents by --esis" cmp "$out/stdout" "$out/many.esis"
ran $sgml --batch $type $many $few $few
check "250 documents by --batch" test "$status,$(cat "$out/stdout"),$(cat "$out/stderr")" = "1,refused 23 in type at 0,sgml: --batch reads at most 200 documents in one call, not 250 [23]"
# the output and the errors of each document in the order of the files, if both go to one place
$sgml -q $type $few $short nowhere $few >"$out/both" 2>&1 || true
sed -n 's/^events.*/events/p; s/^\(.*\):$/\1/p; s/:4:1: .*//p; s/^sgml: .*/nowhere/p' "$out/both" >"$out/order"
printf '%s\n' $few events $short $short nowhere $few events >"$out/order.expected"
check "output and errors in the order of the files" diff "$out/order" "$out/order.expected"

# what scripts for onsgmls use
ran $sgml --esis $type $few $short $few
{ $sgml --esis $type $few; $sgml --esis $type $few; } >"$out/twice.esis"
check "--esis of several documents prints nothing else" diff "$out/stdout" "$out/twice.esis"
ends 0 "" $sgml -s $type $few
ends 0 "" $sgml --esis -s -l $type $few $few
ends 0 "" $sgml -s $type
ends 2 "sgml: --esis, --check, -s, --answer and --batch exclude each other" $sgml -s --answer $type $few
ends 2 "sgml: -l needs --esis" $sgml -l $type $few
rm -f "$out/errors"
for option in "-f $out/errors" "-f$out/errors"; do
    ran $sgml -q $option --check $type $short
    check "$option" test "$status,$(cat "$out/stdout" "$out/stderr")" = 1,
done
check "-f appends" test "$(grep -c "^$short:4:1: .* \[13\]$" "$out/errors")" -eq 2
ends 2 "sgml: $out/no/errors: No such file or directory" $sgml -f "$out/no/errors" --check $type $short
ends 2 "sgml: -f takes the name of a file" $sgml --check $type $few -f
ran $sgml --esis -l $type $few
check "-l begins with the file" test "$(head -1 "$out/stdout")" = "L1 $few"
check "-l adds L commands only" diff <(grep -v '^L' "$out/stdout") <($sgml --esis $type $few)
if needs onsgmls opensp "L commands of onsgmls"; then
    { printf '<!DOCTYPE CATALOG [\n'; cat tests/command/dental.type; printf ']>'; } >"$out/dental.wrap"
    sed 's/$/\r/' tests/command/dental.sgm >"$out/dental.sgm"
    for o in "" -l; do
        onsgmls -w no-all $o "$out/dental.wrap" "$out/dental.sgm" >"$out/lines.expected"
        ran $sgml --esis $o --edition=2 tests/command/dental.type "$out/dental.sgm"
        check "--esis $o as onsgmls" diff "$out/stdout" "$out/lines.expected"
    done
    # the call that --help gives for a comparison
    ran $sgml --help
    sed -n 's/^  \({ printf .*\)/\1/p; s/^  \(onsgmls .*\)/\1/p' "$out/stdout" | sed "s|NAME|CATALOG|; s|TYPE ;|TYPE;|; s|cat TYPE|cat $PWD/tests/command/dental.type|; s|DOCUMENT|$PWD/$out/dental.sgm|" >"$out/compare.sh"
    (cd "$out" && bash compare.sh) >"$out/compare.esis" 2>"$out/compare.err"
    ran $sgml --esis --edition 2 tests/command/dental.type "$out/dental.sgm"
    check "the call of onsgmls in --help" diff "$out/stdout" "$out/compare.esis"
fi

# edition 2 is about byte 13
ran $sgml --edition=2 "$out/record.type" "$out/record.sgm"
check "--edition=2" test "$(sed -n 3p "$out/stdout"),$(cat "$out/stderr")" = "5 - 5 5,"
warning="examples/catalogues/few-tags.cat:1:1: warning: the lines of this document end with byte 10 alone; edition 2 is about byte 13, so it reads as in edition 1"
ends 0 "$warning" $sgml --check --edition 2 $type $few
check "one warning for a document" test "$(wc -l <"$out/stderr")" -eq 1
ran $sgml --edition 2 $type $few
check "and the events of edition 1" diff "$out/stdout" <($sgml $type $few)
ends 0 "" $sgml --check --edition 1 $type $few
printf '<P>one line</P>' >"$out/line.sgm"
ends 0 "" $sgml --check --edition 2 "$out/record.type" "$out/line.sgm"
ran $sgml --answer --edition 2 $type $few
check "no warning by --answer" test ! -s "$out/stderr"

# names that are never declared
printf '<!-- TAPE -->\n<!ELEMENT A - O (B,(CLAMPP|TAPE)*,B,#PCDATA,b1) -- NONE -->\n<!ELEMENT B - O EMPTY>' >"$out/slips.type"
ran $sgml -q --check "$out/slips.type"
printf "$out/slips.type:2:%s: warning: %s is used in a content model, but never declared\n" 21 CLAMPP 28 TAPE 45 B1 >"$out/slips"
check "names never declared" diff "$out/stderr" "$out/slips"
check "they are allowed" test "$status" -eq 0 -a ! -s "$out/stdout"
told

echo "make install, and a program that links by pkg-config"
prefix=$PWD/$out/prefix
make install PREFIX="$prefix" >"$out/install.log"
make install PREFIX=/usr DESTDIR="$PWD/$out/stage" >"$out/install.log"
printf '%s\n' bin/sgml include/sgml.h include/sgml_messages.h include/sgml_position.h lib/libsgml.a lib/libsgml_messages.a \
    lib/pkgconfig/sgml.pc share/man/man1/sgml.1 >"$out/files"
(cd "$prefix" && find . -type f | sort | sed 's|^\./||') >"$out/files.prefix"
(cd "$out/stage/usr" && find . -type f | sort | sed 's|^\./||') >"$out/files.stage"
check "the files under PREFIX" diff "$out/files" "$out/files.prefix"
check "the files under DESTDIR" diff "$out/files" "$out/files.stage"
check "DESTDIR is not in sgml.pc" grep -qx "prefix=/usr" "$out/stage/usr/lib/pkgconfig/sgml.pc"
ends 0 "" "$prefix/bin/sgml" --check $type $few
if needs pkg-config pkg-config "a program that links by pkg-config"; then
    flags=$(PKG_CONFIG_PATH=$prefix/lib/pkgconfig pkg-config --cflags --libs sgml)
    check "the version for pkg-config" test "$(PKG_CONFIG_PATH=$prefix/lib/pkgconfig pkg-config --modversion sgml)" = "$version"
    check "as C99" cc -std=c99 $strict tests/command/installed.c $flags -o "$out/installed"
    check "as C++" c++ $strict -x c++ tests/command/installed.c -x none $flags -o "$out/installed++"
    echo "accepted, 3 events, the first of kind 2" >"$out/installed.expected"
    for p in installed installed++; do
        ran "$out/$p"
        check "$p runs" diff "$out/stdout" "$out/installed.expected"
    done
fi
if needs groff groff "the manual page"; then
    check "the manual page" test -z "$(groff -man -ww -z command/sgml.1 2>&1)"
fi
spaced="$PWD/$out/a prefix"
make install PREFIX="$spaced" >"$out/install.log"
check "a PREFIX with a space" test "$(cd "$spaced" && find . -type f | sort | sed 's|^\./||')" = "$(cat "$out/files")"
if needs pkg-config pkg-config "a program that links by pkg-config under a PREFIX with a space"; then
    flags=$(PKG_CONFIG_PATH=$spaced/lib/pkgconfig pkg-config --cflags --libs sgml)
    check "pkg-config of a PREFIX with a space" eval "cc -std=c99 $strict tests/command/installed.c $flags -o $out/spaced"
fi
make uninstall PREFIX="$spaced" >"$out/install.log"
check "make uninstall from a PREFIX with a space" test -z "$(find "$spaced" -type f)"
touch "$prefix/lib/other.a"
make uninstall PREFIX="$prefix" >"$out/install.log"
check "make uninstall takes away what was installed, and no more" test "$(cd "$prefix" && find . -type f)" = ./lib/other.a
told
[ "$all_failed" -eq 0 ]
