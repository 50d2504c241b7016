#!/bin/sh
# Runs the proved program with the words that are given. Where the program is missing, or older than its sources, it is
# proved and built first; what is said of that goes to standard error. Where it fails the status is 126, and a program that
# was there stays where it is.
here=$(dirname -- "$(readlink -f -- "$0")") || exit 126
program=$here/crates/hx_main/out/hx_main

is_old() {
    [ ! -x "$program" ] || [ -n "$(find "$here/crates.txt" "$here"/crates/*/src "$here"/crates/*/specs \
        "$here"/crates/*/proofs -newer "$program" 2>/dev/null)" ]
}

if is_old; then
    "$here/tools/build-program" || exit 126
fi
exec "$program" "$@"
