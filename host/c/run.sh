#!/bin/sh
# run.sh [LIBRARY]: builds header_test.c against LIBRARY (default: crates/host/out/libhost.a, which `rt lib` in crates/host writes),
# once as C and once as C++, guard_test.c with guard_join.c and guard_evaluate.c, and stack_test.c, and runs them. Ends with status 0
# where all end well.
set -eu

here=$(cd "$(dirname "$0")" && pwd)
library=${1:-$here/../../crates/host/out/libhost.a}
out=$here/target

if [ ! -f "$library" ]; then
    echo "run.sh: $library is missing: 'rt lib' in crates/host writes it" >&2
    exit 2
fi
mkdir -p "$out"
gcc -std=c99 -pedantic -O1 -Wall -Wextra -Werror -o "$out/header_test" "$here/header_test.c" "$library"
g++ -x c++ -O1 -Wall -Wextra -Werror -o "$out/header_test_cpp" "$here/header_test.c" -x none "$library"
gcc -std=c99 -D_DEFAULT_SOURCE -O2 -Wall -Wextra -Werror -o "$out/guard_test" "$here/guard_test.c" "$here/guard_join.c" "$here/guard_evaluate.c" \
    "$here/guard.c" "$library"
gcc -std=c99 -D_DEFAULT_SOURCE -O1 -Wall -Wextra -Werror -pthread -o "$out/stack_test" "$here/stack_test.c" "$library"
"$out/header_test"
"$out/header_test_cpp"
"$out/guard_test"
"$out/stack_test"
