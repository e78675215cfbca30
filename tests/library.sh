# The proved library behind its C interface: the header, the vectors, and generated inputs held against the second implementation.
set -eu
cd "$(dirname "$0")/.."
out=target/tests
mkdir -p "$out"
. tests/tools
built >"$out/staticlib.log" 2>&1 || { cat "$out/staticlib.log"; exit 1; }

echo "the header as C99 and as C++"
echo '#include "sgml.h"' >"$out/header.c"
cc -std=c99 -Wall -Wextra -pedantic -Werror -Iinclude -c "$out/header.c" -o "$out/header.o"
c++ -Wall -Wextra -pedantic -Werror -Iinclude -x c++ -c "$out/header.c" -o "$out/header.o"
echo "2 passed, 0 failed"

echo "the version as a text and as a number"
version=$(sed -n 's/^#define SGML_VERSION "\(.*\)"/\1/p' include/sgml.h)
number=$(sed -n 's/^#define SGML_VERSION_NUMBER \([0-9]*\).*/\1/p' include/sgml.h)
echo "$version" | { IFS=. read -r major minor patch && [ "$((10000 * major + 100 * minor + patch))" -eq "$number" ]; }
echo "1 passed, 0 failed"

# The compiler is asked to refuse a call of which nothing is used, and nothing else.
echo "a call whose answer is ignored is warned of"
for call in 'sgml_judge(t, n, NULL, 0, a, SGML_NAMELEN, SGML_FIRST_EDITION)' 'sgml_attributes(t, n, NULL, 0, a, SGML_NAMELEN, SGML_FIRST_EDITION)' 'sgml_read(t, n, t, n, NULL, 0, a, SGML_NAMELEN, SGML_FIRST_EDITION)' \
    'sgml_read_batch(t, n, t, n, NULL, 0, NULL, 0, NULL, 0, NULL, 0, NULL, 0, NULL, 0, a, SGML_NAMELEN, SGML_FIRST_EDITION)'; do
    printf '#include "sgml.h"\nuint32_t f(const uint8_t *t, size_t n, uint32_t *a);\nuint32_t f(const uint8_t *t, size_t n, uint32_t *a)\n{\n    return %s;\n}\n' "$call" >"$out/used.c"
    sed "s/return \(.*\);/\1; return 0;/" "$out/used.c" >"$out/ignored.c"
    cc -std=c99 -Wall -Wextra -pedantic -Werror -Iinclude -c "$out/used.c" -o "$out/used.o"
    if cc -std=c99 -Wall -Wextra -pedantic -Werror -Iinclude -c "$out/ignored.c" -o "$out/ignored.o" 2>"$out/ignored.txt"; then
        echo "nothing is said of: $call"
        exit 1
    fi
    grep -q unused-result "$out/ignored.txt"
done
echo "4 passed, 0 failed"

if needs rustc rustc "the second implementation on the vectors, and on all walks of small models"; then
    echo "the second implementation on the vectors, and on all walks of small models"
    rustc -O --edition 2021 tests/oracle/vectors.rs -o "$out/vectors"
    "$out/vectors" tests/vectors
    rustc -O --edition 2021 tests/oracle/walks.rs -o "$out/walks"
    "$out/walks" 3000 1
fi

echo "the library's boundary in C"
cc -std=c99 -Wall -Wextra -pedantic -Werror -g -Iinclude tests/boundary.c target/staticlib/libsgml.a -o "$out/boundary"
"$out/boundary"

echo "a batch beside the single calls, at its boundary"
cc -std=c99 -Wall -Wextra -pedantic -Werror -g -Iinclude tests/boundary_batch.c target/staticlib/libsgml.a -o "$out/boundary_batch"
"$out/boundary_batch"

echo "the vectors' documents in batches, good and faulty ones mixed, beside the single calls"
cc -std=c99 -Wall -Wextra -pedantic -Werror -O2 -Iinclude tests/batched.c target/staticlib/libsgml.a -o "$out/batched"
"$out/batched" tests/vectors/*/*/

echo "the library on the vectors"
cc -std=c99 -Wall -Wextra -pedantic -Werror -O2 -Iinclude tests/judged.c target/staticlib/libsgml.a -o "$out/judged"
"$out/judged" tests/vectors/*/*/

echo "the numbers of events, on the vectors that have them"
cc -std=c99 -Wall -Wextra -pedantic -Werror -O2 -Iinclude tests/numbers.c target/staticlib/libsgml.a -o "$out/numbers"
"$out/numbers" tests/vectors/*/*/

echo "the standard's own content models"
cc -std=c99 -Wall -Wextra -pedantic -Werror -O2 -Iinclude tests/listed.c target/staticlib/libsgml.a -o "$out/listed"
"$out/listed" tests/standard.cases

echo "the type file's open points, as they are settled"
"$out/listed" tests/decided.cases

echo "the stack that a call takes"
cc -std=c99 -Wall -Wextra -pedantic -Werror -O2 -Iinclude tests/stack.c target/staticlib/libsgml.a -lpthread -o "$out/stack"
"$out/stack"
echo "1 passed, 0 failed"

echo "as many events as SGML_MOST_EVENTS says"
cc -std=c99 -Wall -Wextra -pedantic -Werror -O2 -Iinclude tests/most.c target/staticlib/libsgml.a -o "$out/most"
"$out/most"

echo "the example program on the example type files"
examples/run >"$out/examples.txt"
diff "$out/examples.txt" examples/expected.txt
echo "1 passed, 0 failed"

if needs rustc rustc "the library against the second implementation"; then
    echo "the library against the second implementation, on generated and damaged type files and documents"
    rustc -O --edition 2021 tests/oracle/compare.rs -L target/staticlib -l static=sgml -o "$out/compare"
    "$out/compare" "${CASES:-100000}" "${SEED:-1}"

    echo "the same on documents of record ends, text, comments and tags, in both editions"
    rustc -O --edition 2021 tests/oracle/records.rs -L target/staticlib -l static=sgml -o "$out/records"
    "$out/records" "${CASES:-100000}" "${SEED:-1}"

    echo "batches against the second implementation, with lists that are fit and damaged"
    rustc -O --edition 2021 tests/oracle/batches.rs -L target/staticlib -l static=sgml -o "$out/batches"
    "$out/batches" "$((${CASES:-100000} / 10))" "${SEED:-1}"

    echo "the same on the vectors' inputs, cut at every byte and with every byte value"
    rustc -O --edition 2021 tests/oracle/edges.rs -L target/staticlib -l static=sgml -o "$out/edges"
    "$out/edges" tests/vectors
fi
