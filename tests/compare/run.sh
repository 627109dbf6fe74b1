#!/usr/bin/env bash
# Builds the original Rust from a folder of its sources, together with the
# driver in workspace, and runs one mode of the driver:
#
#   run.sh FOLDER MODE [ARGS]
#
# FOLDER has crates/vrf-bitio/src and crates/vrf-schema/src. Its files are not
# copied into the repository: everything is copied to VRF_COMPARE_DIR and built
# there. The default is vrf-compare in the temporary folder. README.md lists
# the modes and the other variables.
set -euo pipefail

if [ $# -lt 2 ]; then
    sed -n '2,5p' "$0" | sed 's/^# \{0,1\}//' >&2
    exit 2
fi

here=$(cd "$(dirname "${BASH_SOURCE[0]}")" && pwd)
if [ ! -f "$1/crates/vrf-bitio/src/lib.rs" ]; then
    echo "no sources of the original in $1" >&2
    exit 2
fi
originals=$(cd "$1/crates" && pwd)
mode=$2
shift 2

stage=${VRF_COMPARE_DIR:-${TMPDIR:-/tmp}/vrf-compare}
mkdir -p "$stage"
stage=$(cd "$stage" && pwd)
export VRF_COMPARE_DIR=$stage

# Copies a file only if its content differs. Whether cargo builds it again
# depends on the file's time, which an equal copy keeps.
declare -A staged
place() {
    staged[$2]=1
    if ! cmp -s "$1" "$stage/$2"; then
        mkdir -p "$(dirname "$stage/$2")"
        cp "$1" "$stage/$2"
    fi
}

# The lib.rs of vrf-schema is the one in workspace, even if FOLDER has one too.
for file in "$originals"/vrf-bitio/src/*.rs "$originals"/vrf-schema/src/*.rs; do
    name=${file#"$originals"/}
    [ "$name" = vrf-schema/src/lib.rs ] || place "$file" "$name"
done
while IFS= read -r name; do
    place "$here/workspace/$name" "$name"
done < <(cd "$here/workspace" && find * -name '*.rs' -o -name Cargo.toml)

# Files that only an earlier run copied must not be built.
while IFS= read -r name; do
    [ -n "${staged[$name]:-}" ] || rm "$stage/$name"
done < <(cd "$stage" && find driver thiserror vrf-bitio vrf-schema -type f)

# The two static libraries may have functions of the same names, so a build
# links only the library that its mode needs.
if [ "$mode" = bench ]; then
    unset VRF_STATICLIB
else
    unset VRF_BENCHLIB
fi

# Builds the static library of CRATE, if no folder with it is given, and stages
# it as libNAME.a, the name that the driver links.
library() { # VARIABLE CRATE NAME
    [ -z "${!1:-}" ] || return 0
    (cd "$here/../../crates/$2" && rt lib) >&2 || exit 2
    place "$here/../../crates/$2/out/lib$2.a" "lib/lib$3.a"
    export "$1=$stage/lib"
}
case $mode in
bench) library VRF_BENCHLIB bench_loops bench_loops ;;
check | exhaustive | random | calls | reads | late)
    if [ -z "${VRF_COMPARE_SELF:-}" ]; then
        library VRF_STATICLIB vrf_replay_c vrf_replay
    fi
    ;;
esac
for name in VRF_STATICLIB VRF_BENCHLIB; do
    if [ -n "${!name:-}" ]; then
        export "$name=$(cd "${!name}" && pwd)"
    fi
done

cargo build --quiet --release --offline \
    --manifest-path "$stage/Cargo.toml" --target-dir "$stage/target" >&2
exec "$stage/target/release/vrf-compare" "$mode" "$@"
