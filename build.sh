#!/usr/bin/env bash
# Proves and builds what is run outside the proofs: `bash build.sh library` writes target/libpasturequill.a, the library for C, and
# `bash build.sh print` writes target/print, the printing program. What is proved already is not proved again.
set -euo pipefail
cd "$(dirname "$0")"
mkdir -p target
for what in "$@"; do
    case $what in
    library)
        (cd crates/pasturequill_c && rt lib)
        cp crates/pasturequill_c/out/libpasturequill_c.a target/libpasturequill.a
        ;;
    print)
        (cd crates/print && rt run < stdin > /dev/null)
        cp crates/print/out/print target/print
        ;;
    *)
        echo "build.sh: library or print, and not $what" >&2
        exit 1
        ;;
    esac
done
