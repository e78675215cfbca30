# What .ci/progress says while a command of rt proves, in a log and on a terminal, and that it ends as the
# command does.
set -eu
cd "$(dirname "$0")/.."
. tests/tools
out=target/tests/progress
rm -rf "$out"
mkdir -p "$out"
passed=0 failed=0

# held WHAT COMMAND..: counts it.
held() {
    if "${@:2}"; then
        passed=$((passed + 1))
    else
        failed=$((failed + 1))
        echo "failed: $1"
    fi
}

# said STATUS FILE SCRIPT: what progress says of a script, in place of rt, in a log, its seconds left out, and
# how it ends.
said() {
    local status=0
    .ci/progress text sh "$PWD/$3" >"$out/stdout" 2>"$out/stderr" || status=$?
    sed 's/([0-9]* s)/(N s)/; s/, [0-9]* s\( so far\)*$/, N s\1/' "$out/stderr" >"$out/said"
    [ "$status" -eq "$1" ] && [ ! -s "$out/stdout" ] && diff "$out/said" "$2"
}

echo "what is said while crates are proved"
# rt takes basic_laws, rules and text, in this order; of basic_laws, which has no functions, it prints nothing
cat >"$out/proves" <<'END'
crate() { # NAME: what rt prints of a crate that is proved
    echo "rt: chose --jobs 2 for $1"
    echo "fn $1::byte: proved"
    echo "struct $1::Byte: proved"
    echo "logic /kit/antt-project.json: libraries=16"
    echo "statements std: modules loaded=3 checked=0"
    echo "library layout: modules loaded=2 checked=0"
    echo "crate $1: modules loaded=174 checked=2"
    echo "logic=proved functions=1 sum=0"
}
echo "rt: rules: begins with what a check kept in FOLDER"
crate rules
printf 'a line that comes '
sleep 1.2
echo "in two parts"
crate text
END
cat >"$out/proves.said" <<'END'
proved 2 of 3 crates: rules (N s), N s so far
proved 3 of 3 crates: text (N s), N s so far
proved 3 crates, 2 of them now, N s
END
held "crates that are proved" said 0 "$out/proves.said" "$out/proves"
cat >"$out/unchanged" <<'END'
echo "rt: chose --jobs 2 for text"
echo "fn text::byte: proved"
echo "crate text: modules loaded=176 checked=0"
echo "logic=proved functions=1 sum=0"
END
echo "all 3 crates are proved already, N s" >"$out/unchanged.said"
held "crates that are proved already" said 0 "$out/unchanged.said" "$out/unchanged"
cat >"$out/fails" <<'END'
echo "fn rules::less: proved"
echo "crate rules: modules loaded=0 checked=1"
echo "logic=proved functions=1"
echo "fn text::less: proved"
echo "error: what is wrong" >&2
echo "fn text::more: not proved"
exit 1
END
cat >"$out/fails.said" <<'END'
proved 2 of 3 crates: rules (N s), N s so far
error: what is wrong
fn text::more: not proved
END
held "a crate that is not proved" said 1 "$out/fails.said" "$out/fails"
echo "rt: there is no such command" >"$out/wrong.said"
echo 'echo "rt: there is no such command" >&2; exit 2' >"$out/wrong"
held "a command that does not run" said 2 "$out/wrong.said" "$out/wrong"
held "a machine without rt" test "$(PATH=/usr/bin:/bin .ci/progress text no-such-rt lib 2>&1)" = \
    "no-such-rt is not on the PATH; README.md says under Building where it comes from, and what can be done \
without it"
if needs script bsdutils "what is said on a terminal"; then
    script -qec ".ci/progress text sh $PWD/$out/proves" /dev/null </dev/null | tr '\r' '\n' >"$out/lines"
    sed 's/^.\[K//; /^$/d' "$out/lines" >"$out/terminal"
    ticks=$(grep -cx "proved 2 of 3 crates: rules ([0-9]* s), [0-9]* s so far" "$out/terminal")
    held "the seconds go on where nothing comes" test "$ticks" -ge 2
    held "the last line stays" grep -qx "proved 3 crates, 2 of them now, [0-9]* s" <(tail -1 "$out/terminal")
fi
echo "$passed passed, $failed failed"
[ "$failed" -eq 0 ]
