#!/bin/sh
# build.sh [SOURCE [LIBHOST]]: builds target/bench from the Rust files of SOURCE, as differential/build.sh does ('' is its default).
# With LIBHOST, the path of our library's archive libhost.a, our half is linked too, and target/evaluation is built.
set -eu

here=$(cd "$(dirname "$0")" && pwd)
out=$here/target
source=${1:-${UNICORN_SRC:-$here/../../shared/docs/src}}
library=${2:-}

"$here/../differential/build.sh" "$source" "$out"
UNICORN_SRC=$(cd "$source" && pwd)
export UNICORN_SRC

# The oracle's source tree with another main and one more module in the builder.
rm -rf "$out/bench-tree"
cp -r "$out/oracle-tree" "$out/bench-tree"
cp "$here/src/main.rs" "$here/src/measure.rs" "$here/src/ours.rs" "$out/bench-tree"
cp "$here/src/builder.rs" "$out/bench-tree/unicorn/builder.rs"
cp "$here/src/rust.rs" "$out/bench-tree/unicorn/builder/rust.rs"

host=
if [ -n "$library" ]; then
    host="--cfg host -L native=$(cd "$(dirname "$library")" && pwd) -l static=host"
fi
externs=
for crate in byteorder anyhow bytesize log riscu unicorn; do
    externs="$externs --extern $crate"
done
# A release build, as cargo makes it.
compile() {
    rustc --edition 2021 -C opt-level=3 -C debug-assertions=off -C overflow-checks=off --cap-lints allow --crate-type bin "$@"
}
# shellcheck disable=SC2086
compile -L "$out/oracle-lib" $externs $host --crate-name bench -o "$out/bench" "$out/bench-tree/main.rs"
if [ -n "$library" ]; then
    # shellcheck disable=SC2086
    compile $host --crate-name evaluation -o "$out/evaluation" "$here/src/evaluation.rs"
fi
