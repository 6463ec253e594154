#!/usr/bin/env bash
# Tries all edits of a crate: those in crates/NAME/must-fail, which every whole run tries, and those in crates/NAME/edits,
# which would make it too long. The prover must refuse each.
#
# usage: tools/edits.sh NAME
set -eu

top=$(dirname "$(dirname "$(readlink -f "${BASH_SOURCE[0]}")")")
crate=$top/crates/${1-}
if [[ $# -ne 1 || ! -d $crate/edits ]]; then
    echo "usage: tools/edits.sh NAME, where crates/NAME/edits stands" >&2
    exit 2
fi

back() {
    for edit in "$crate"/edits/*.edit; do
        rm -f "$crate/must-fail/$(basename "$edit")"
    done
    rmdir --ignore-fail-on-non-empty "$crate/must-fail"
}
trap back EXIT

mkdir -p "$crate/must-fail"
cp "$crate"/edits/*.edit "$crate/must-fail/"
cd "$top"
rt must-fail "$1"
