#!/usr/bin/env bash
# Compares the loading of a large stylesheet: the user time in seconds and the peak memory in kilobytes of `xslt2xq
# transform` and of `xsltproc`, where it is installed, on a stylesheet of COUNT templates, each for elements of its own
# name. They run on a document of one element, so that a run is little more than the loading, and on one of three times
# COUNT elements, which all match one of the templates. Each is the best of three runs.
#
# usage: bench/rules.sh COUNT    100000 templates make some 4.5 MB
set -eu

top=$(dirname "$(dirname "$(readlink -f "${BASH_SOURCE[0]}")")")
data=$top/bench/data
source "$top/bench/measure.sh"

if [[ ! ${1-} =~ ^[0-9]+$ ]]; then
    echo "usage: bench/rules.sh COUNT" >&2
    exit 2
fi

mkdir -p "$data/rules-$1"
sheet=$data/rules-$1/s.xsl
small=$data/rules-$1/small.xml
large=$data/rules-$1/large.xml
[[ -s $sheet ]] || awk -v count="$1" 'BEGIN {
    printf "<xsl:stylesheet version=\"2.0\" xmlns:xsl=\"http://www.w3.org/1999/XSL/Transform\">"
    for (i = 1; i <= count; i++) printf "<xsl:template match=\"a%d\">x</xsl:template>", i
    printf "</xsl:stylesheet>"
}' >"$sheet"
printf '<l/>' >"$small"
[[ -s $large ]] || awk -v count="$1" 'BEGIN {
    printf "<l>"
    for (i = 1; i <= 3 * count; i++) printf "<a1/>"
    printf "</l>"
}' >"$large"

# Proves and builds it where need be.
"$top/xslt2xq" transform "$sheet" "$small" >/dev/null || true

for document in "$small" "$large"; do
    printf '%s on %s: %d and %d bytes\n' "$sheet" "$document" "$(wc -c <"$sheet")" "$(wc -c <"$document")"
    measure xslt2xq "$top/crates/xslt2xq/out/xslt2xq" transform "$sheet" "$document"
    if command -v xsltproc >/dev/null; then
        measure xsltproc xsltproc "$sheet" "$document"
    fi
done
