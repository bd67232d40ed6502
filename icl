#!/usr/bin/env bash
# ./icl ARGUMENTS runs the tool icl. The first time, and when sources have changed, it proves and builds the library and the tool before (.ci/build).
here=$(readlink -f "$0")
here=${here%/*}
tool=$here/rust/target/release/icl
built=$here/rust/target/built

if [ -x "$tool" ] && [ -f "$built" ]; then
    newer=$(find "$here/crates" "$here/crates.txt" "$here/include" "$here/rust/x9180" "$here/rust/icl" "$here/rust/Cargo.toml" "$here/rust/Cargo.lock" \
        -path "$here/crates/*/out" -prune -o -type f -newer "$built" -print -quit)
    [ -n "$newer" ] || exec "$tool" "$@"
    echo "icl: ${newer#"$here/"} is newer than what was built: building anew" >&2
fi
"$here/.ci/build" || exit
exec "$tool" "$@"
