# The examples of docs/RULES.md and of the manual page: each damaged file gives the message that stands under it, each mended one is
# accepted, commands print what stands under them, and every refusal number has an example.
set -eu
cd "$(dirname "$0")/.."
export LC_ALL=C
out=$PWD/target/tests/rules
rm -rf "$out"
mkdir -p "$out/case"
. tests/tools
{ built && make; } >"$out/make.log" 2>&1 || { cat "$out/make.log"; exit 1; }
PATH=$PWD/target:$PATH
passed=0 failed=0 where="the beginning" seen=

# held WHAT COMMAND..: counts it.
held() {
    if "${@:2}"; then
        passed=$((passed + 1))
    else
        failed=$((failed + 1))
        echo "failed: $where: $1"
    fi
}

# Runs the example at hand: the commands that stand there, or the check of its files.
run() {
    local files="stock.type list.sgm"
    [ -e "$out/case/list.sgm" ] || files=stock.type
    status=0
    (cd "$out/case" && if [ -e commands ]; then bash commands; else sgml -q --check $files; fi) >"$out/said" 2>&1 || status=$?
}

accepted() { [ "$status" -eq 0 ] && ! grep -v ': warning: ' "$out/said"; }

# block KIND: what is to be done with the block in $out/block.
block() {
    case $1 in
    type | document | sh | mended-type | mended-document)
        rm -rf "$out/case"
        mkdir "$out/case"
        [ ! -e "$out/stock.type" ] || cp "$out/stock.type" "$out/case"
        ;;
    esac
    case $1 in
    type | mended-type) cp "$out/block" "$out/case/stock.type" ;;
    document | mended-document) cp "$out/block" "$out/case/list.sgm" ;;
    sh) cp "$out/block" "$out/case/commands" ;;
    esac
    case $1 in
    type) [ -e "$out/stock.type" ] || cp "$out/block" "$out/stock.type" ;;
    answer)
        run
        held "the message" diff "$out/said" "$out/block"
        held "the status $status" test "$status" -eq 1
        seen="$seen $(sed -n 's/.* \[\([0-9]*\)\]$/\1/p; s/^refused \([0-9]*\) .*/\1/p' "$out/block")"
        ;;
    printed)
        run
        held "what is printed" diff "$out/said" "$out/block"
        held "the status $status" test "$status" -eq 0
        ;;
    mended-*)
        run
        held "the mended file" accepted
        ;;
    esac
}

echo "the examples of docs/RULES.md"
kind=
while IFS= read -r line; do
    case $line in
    '```') [ -z "$kind" ] || block "$kind"; kind= ;;
    '```'*) kind=${line#'```'}; : >"$out/block" ;;
    '### '*) where=${line#'### '} ;;
    *) [ -z "$kind" ] || printf '%s\n' "$line" >>"$out/block" ;;
    esac
done <docs/RULES.md
where="the numbers"
for number in $(seq 25); do
    held "$number has an example" grep -qw "$number" <<<"$seen"
    held "$number is in the table" grep -q "^| \[$number\](#$number-" docs/RULES.md
done

# The limits of the header, as the document and the manual page have them.
where="the limits"
for name in TYPE_LIMIT DOCUMENT_LIMIT ELEMENT_LIMIT NAMELEN MOST_NAMELEN GRPCNT GRPLVL GRPGTCNT TAGLVL; do
    number=$(sed -n "s/^    SGML_$name = \([0-9]*\),.*/\1/p" include/sgml.h | sed 's/\(...\)$/,\1/; s/^,//')
    # Two limits are 32: that of names is found by its words.
    what=
    case $name in *NAMELEN) what="bytes of a name" ;; esac
    held "$name in docs/RULES.md" grep -q "^| $what.* | $number | [0-9]* |$" docs/RULES.md
    held "$name in command/sgml.1" grep -q "^$what[a-z ]*  $number$" command/sgml.1
done
# The examples of the manual page: what is printed, and where and by which number a document is refused.
where="the manual page"
mkdir "$out/page"
cp examples/cabinet.type "$out/page"
awk '/^\.nf/ { on = 1; next } /^\.fi/ { on = 0 } on' command/sgml.1 | sed 's/\\-/-/g; s/\\fB//; s/\\fP//' >"$out/page/text"
for n in $(seq "$(grep -c '^\$ ' "$out/page/text")"); do
    awk -v wanted="$n" '/^\$ / { n++; next } n == wanted' "$out/page/text" >"$out/page/expected"
    (cd "$out/page" && bash -c "$(sed -n 's/^\$ //p' text | sed -n "${n}p")") >"$out/page/printed" 2>&1 || true
    if grep -q '^events' "$out/page/expected"; then
        held "example $n" diff "$out/page/printed" "$out/page/expected"
    else
        held "example $n" test "$(sed 's/ .* / /' "$out/page/printed")" = "$(tr '\n' ' ' <"$out/page/expected" | sed 's/ $//; s/ .* / /')"
    fi
done
held "there are two examples" test "$n" = 2

version=$(sed -n 's/^#define SGML_VERSION "\(.*\)"/\1/p' include/sgml.h)
held "the version $version in command/sgml.1" grep -q "^\.TH SGML 1 \"20[0-9-]*\" \"sgml $version\" " command/sgml.1
held "and in CHANGELOG.md, with a date" grep -q "^## $version, 20[0-9][0-9]-[0-9][0-9]-[0-9][0-9]$" CHANGELOG.md
echo "$passed passed, $failed failed"
[ "$failed" -eq 0 ]
