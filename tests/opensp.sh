# The library beside onsgmls, the program of OpenSP, on generated documents and type files; skipped where that is not
# installed. INSTALL=yes allows to install it.
# LIBRARY names another build of the library; DOCUMENTS, TYPES and SEED another set of cases, LENGTHS other lengths of names.
set -eu
cd "$(dirname "$0")/.."
out=target/tests
mkdir -p "$out"
. tests/tools

echo "the library beside onsgmls"
if ! needs onsgmls opensp "the library beside onsgmls" || ! needs rustc rustc "the library beside onsgmls"; then
    echo "0 passed, 0 failed"
    exit 0
fi
[ -n "${LIBRARY:-}" ] || built >"$out/staticlib.log" 2>&1 || { cat "$out/staticlib.log"; exit 1; }
rustc -O --edition 2021 tests/oracle/opensp.rs -C link-arg="${LIBRARY:-target/staticlib/libsgml.a}" -o "$out/opensp"
for length in ${LENGTHS:-8 12 32}; do
    echo "names of at most $length bytes"
    "$out/opensp" "$out/opensp.sgm" "${DOCUMENTS:-500}" "${TYPES:-400}" "${SEED:-1}" "$length"
done
