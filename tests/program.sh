# The proved program on every vector, at the limits of its inputs and its numbers, on files that come in pieces or stand under each
# other's name, and where a file is missing. PROGRAM names another build of it.
set -eu
cd "$(dirname "$0")/.."
program=${PROGRAM:-$PWD/crates/sgml_events/out/sgml_events}
[ -x "$program" ] || { echo "$program is not there: rt run in crates/sgml_events makes it"; exit 1; }
room=$(mktemp -d)
trap 'rm -rf "$room"' EXIT
passed=0
failed=0

# A new folder to run in.
fresh() {
    rm -rf "$room/case"
    mkdir "$room/case"
}

# Runs the program there; what it writes is in out and err.
run() {
    (cd "$room/case" && "$program") >"$room/out" 2>"$room/err" || true
}

# Counts a case: it passed if the files are the same.
same() {
    if cmp -s "$2" "$3"; then
        passed=$((passed + 1))
    else
        failed=$((failed + 1))
        echo "$1: $(head -c 200 "$2" | head -n 1), expected $(head -c 200 "$3" | head -n 1)"
    fi
}

# The program writes just the expected file to standard output, and nothing to standard error.
prints() {
    run
    cat "$room/err" >>"$room/out"
    same "$1" "$room/out" "$2"
}

# The program writes just this line to standard error, and nothing to standard output.
complains() {
    run
    printf '%s\n' "$2" >"$room/expected"
    cat "$room/out" >>"$room/err"
    same "$1" "$room/err" "$room/expected"
}

counted() {
    echo "$passed passed, $failed failed"
    [ "$failed" -eq 0 ] || exit 1
    passed=0
}

# So many bytes of a kind.
many() {
    head -c "$1" /dev/zero | tr '\0' "$2"
}

echo "the program on the vectors"
for v in tests/vectors/*/*/; do
    # the program gives 8 as the length of names
    [ ! -e "$v/args" ] || continue
    fresh
    cp "$v/type.sgm" "$v/doc.sgm" "$room/case"
    prints "$v" "$v/expected"
done
counted

example=$PWD/crates/sgml_events
type=$example/data/type.sgm
length=$(wc -c <"$type")

echo "the program at the limits of its inputs"
for bytes in 32768 32769 100000; do
    fresh
    { cat "$type"; many $((bytes - length)) ' '; } >"$room/case/type.sgm"
    cp "$example/data/doc.sgm" "$room/case"
    if [ "$bytes" -le 32768 ]; then cp "$example/stdout" "$room/expected"; else echo "refused 1 in type at 0" >"$room/expected"; fi
    prints "a type file of $bytes bytes" "$room/expected"
done
# What is printed of a document of so many bytes "x": one run of data up to the limit, a refusal beyond it.
expect_document() {
    if [ "$1" -le 65535 ]; then
        printf '%s\n' 'events 7' '2 LIST 0 0' '2 ITEM 0 0' '2 NAME 0 0' '5 - 0 65535' '4 NAME 65535 0' '4 ITEM 65535 0' '4 LIST 65535 0'
    else
        echo "refused 1 in document at 0"
    fi >"$room/expected"
}
for bytes in 65535 65536 200000; do
    fresh
    cp "$type" "$room/case"
    many "$bytes" x >"$room/case/doc.sgm"
    expect_document "$bytes"
    prints "a document of $bytes bytes" "$room/expected"
done
fresh
many 32769 ' ' >"$room/case/type.sgm"
many 65536 x >"$room/case/doc.sgm"
echo "refused 1 in type at 0" >"$room/expected"
prints "both too long" "$room/expected"
fresh
{ cat "$type"; many $((32768 - length)) ' '; } >"$room/case/type.sgm"
many 65535 x >"$room/case/doc.sgm"
printf '%s\n' 'events 7' '2 LIST 0 0' '2 ITEM 0 0' '2 NAME 0 0' '5 - 0 65535' '4 NAME 65535 0' '4 ITEM 65535 0' '4 LIST 65535 0' >"$room/expected"
prints "both as long as they may be" "$room/expected"
counted

# Hands a file on in pieces: the first ones small, with a pause after each, and then the rest.
pieces() {
    (
        exec 3<"$1"
        exec >"$2"
        for size in 1 2 7 1 50; do
            dd bs="$size" count=1 <&3 2>/dev/null
            sleep 0.02
        done
        cat <&3
    ) 2>/dev/null &
}

# A file that is a pipe: a read gives what is there by then, which need not be all.
echo "the program on files that come in pieces"
for v in tests/vectors/document/*/; do
    fresh
    mkfifo "$room/case/type.sgm" "$room/case/doc.sgm"
    pieces "$v/type.sgm" "$room/case/type.sgm"
    pieces "$v/doc.sgm" "$room/case/doc.sgm"
    prints "$v in pieces" "$v/expected"
    wait
    [ "$passed" -lt 12 ] || break
done
for bytes in 65535 65536 200000; do
    fresh
    cp "$type" "$room/case"
    mkfifo "$room/case/doc.sgm"
    many "$bytes" x >"$room/document"
    pieces "$room/document" "$room/case/doc.sgm"
    expect_document "$bytes"
    prints "a document of $bytes bytes in pieces" "$room/expected"
    wait
done
counted

# Each of these two is a type file: which is which is told by the name alone.
echo "the program on files under each other's name"
fresh
printf '<!ELEMENT A O O (#PCDATA)>' >"$room/case/type.sgm"
printf '<!ELEMENT A - O EMPTY>\n' >"$room/case/doc.sgm"
echo "refused 5 in document at 0" >"$room/expected"
prints "a type file as document" "$room/expected"
fresh
printf '<!-- a --><A>' >"$room/case/doc.sgm"
printf '<!ELEMENT A - O EMPTY>' >"$room/case/type.sgm"
printf '%s\n' 'events 2' '1 A 10 3' '6 A 13 0' >"$room/expected"
prints "a type file and a document" "$room/expected"
mv "$room/case/doc.sgm" "$room/case/type"
mv "$room/case/type.sgm" "$room/case/doc.sgm"
mv "$room/case/type" "$room/case/type.sgm"
echo "refused 4 in type at 11" >"$room/expected"
prints "the same two swapped" "$room/expected"
counted

# An item with data has five events, one with an empty quantity two more, and the list itself two.
echo "the program at the limit of its numbers"
fresh
cp "$type" "$room/case"
{ printf '<ITEM>x<QTY><ITEM>x<QTY>'; for i in $(seq 816); do printf '<ITEM>x'; done; } >"$room/case/doc.sgm"
run
{ echo "events 4096"; echo 4097; } >"$room/expected"
{ head -n 1 "$room/out"; wc -l <"$room/out"; cat "$room/err"; } >"$room/found"
same "4096 events" "$room/found" "$room/expected"
for i in $(seq 819); do printf '<ITEM>x'; done >"$room/case/doc.sgm"
echo "refused 19 in document at 0" >"$room/expected"
prints "4097 events" "$room/expected"
counted

echo "the program where a file is missing or cannot be read"
fresh
complains "both missing" "type.sgm: No such file or directory"
cp "$example/data/doc.sgm" "$room/case"
complains "no type file" "type.sgm: No such file or directory"
fresh
cp "$type" "$room/case"
complains "no document" "doc.sgm: No such file or directory"
mkdir "$room/case/doc.sgm"
complains "a document that is a folder" "doc.sgm: Is a directory"
fresh
cp "$example"/data/* "$room/case"
(cd "$room/case" && "$program") >/dev/full 2>"$room/err" || true
echo "standard output: No space left on device" >"$room/expected"
same "a full device" "$room/err" "$room/expected"
counted
