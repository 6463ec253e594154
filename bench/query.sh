#!/usr/bin/env bash
# Compares the reading of a long query: the user time in seconds and the peak memory in kilobytes of `xslt2xq query`, of
# `basex` and of `xmlpatterns`, where they are installed, on a comma list of COUNT small expressions (bench/list.py) that
# is read and not evaluated, and a document of one element; and beside it those of `xslt2xq transform` on two documents of
# as many bytes: a catalogue, which is mostly words, and small elements, of about as many bytes each as an expression has.
# Each is the best of three runs.
#
# usage: bench/query.sh COUNT    1000000 expressions make some 10 MB
set -eu

top=$(dirname "$(dirname "$(readlink -f "${BASH_SOURCE[0]}")")")
data=$top/bench/data
source "$top/bench/measure.sh"

if [[ ! ${1-} =~ ^[0-9]+$ ]]; then
    echo "usage: bench/query.sh COUNT" >&2
    exit 2
fi

mkdir -p "$data/list-$1"
query=$data/list-$1/q.xq
document=$data/list-$1/d.xml
[[ -s $query ]] || python3 "$top/bench/list.py" "$1" "$query"
printf '<l/>' >"$document"

# Proves and builds it where need be.
"$top/xslt2xq" query "$query" "$document" >/dev/null || true

printf '%s: %d bytes\n' "$query" "$(wc -c <"$query")"
measure xslt2xq "$top/crates/xslt2xq/out/xslt2xq" query "$query" "$document"
if command -v basex >/dev/null; then
    measure basex basex -i "$document" "$query"
fi
if command -v xmlpatterns >/dev/null; then
    measure xmlpatterns xmlpatterns "$query" "$document"
fi
size=$(wc -c <"$query")
"$top/bench/read.sh" "$size"
mkdir -p "$data/elements-$size"
elements=$data/elements-$size/d.xml
[[ -s $elements ]] || python3 "$top/bench/elements.py" "$size" "$elements"
"$top/bench/read.sh" "$elements"
