# The standard's own examples of omitted tags and of record ends, read by the library. LIBRARY names another build of it.
set -eu
cd "$(dirname "$0")/.."
out=target/tests
mkdir -p "$out"
. tests/tools
[ -n "${LIBRARY:-}" ] || built >"$out/staticlib.log" 2>&1 || { cat "$out/staticlib.log"; exit 1; }

echo "the standard's own examples of omitted tags and of record ends"
cc -std=c99 -Wall -Wextra -pedantic -Werror -O2 -Iinclude tests/omitted.c "${LIBRARY:-target/staticlib/libsgml.a}" -o "$out/omitted"
"$out/omitted" tests/omitted.cases
