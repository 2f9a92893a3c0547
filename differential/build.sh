#!/bin/sh
# build.sh [SOURCE [OUT]]: builds OUT/oracle from the Rust files of SOURCE, which are used as they are.
# SOURCE is by default $UNICORN_SRC or ../shared/docs/src beside the repository, OUT differential/target.
set -eu

here=$(cd "$(dirname "$0")" && pwd)
source=${1:-${UNICORN_SRC:-$here/../../shared/docs/src}}
out=${2:-$here/target}

if ! command -v rustc >/dev/null 2>&1; then
    echo "build.sh: rustc is not installed: the oracle was not built" >&2
    exit 1
fi
for file in src/unicorn/builder.rs src/unicorn/mod.rs src/engine/system.rs; do
    if [ ! -f "$source/$file" ]; then
        echo "build.sh: $source/$file is missing: the oracle was not built" >&2
        exit 1
    fi
done
UNICORN_SRC=$(cd "$source" && pwd)
export UNICORN_SRC

# The source tree: mod.rs as it is, our builder.rs, which takes in the Rust one, and an empty file for each other
# module that mod.rs declares.
rm -rf "$out/oracle-tree"
mkdir -p "$out/oracle-tree/unicorn/builder" "$out/oracle-lib"
cp "$UNICORN_SRC/src/unicorn/mod.rs" "$out/oracle-tree/unicorn/mod.rs"
cp "$here/oracle/main.rs" "$here/oracle/nodes.rs" "$here/oracle/sorts.rs" "$out/oracle-tree/"
cp "$here/oracle/builder.rs" "$out/oracle-tree/unicorn/builder.rs"
cp "$here/oracle/driver.rs" "$here/oracle/joins.rs" "$out/oracle-tree/unicorn/builder/"
sed -n 's/^pub mod \([a-z0-9_]*\);$/\1/p' "$UNICORN_SRC/src/unicorn/mod.rs" | while read -r module; do
    [ -e "$out/oracle-tree/unicorn/$module.rs" ] || : >"$out/oracle-tree/unicorn/$module.rs"
done

# A release build: sums wrap.
compile() {
    rustc --edition 2021 -O -C debug-assertions=off -C overflow-checks=off -C codegen-units=1 --cap-lints allow \
        -L "$out/oracle-lib" "$@"
}
externs=
for crate in byteorder anyhow bytesize log riscu unicorn; do
    # shellcheck disable=SC2086
    compile --crate-type rlib --crate-name "$crate" $externs -o "$out/oracle-lib/lib$crate.rlib" "$here/oracle/standins/$crate.rs"
    externs="$externs --extern $crate"
done
# shellcheck disable=SC2086
compile --crate-type bin --crate-name oracle $externs -o "$out/oracle" "$out/oracle-tree/main.rs"
