#!/usr/bin/env bash
# Compares the reading of a document: the user time in seconds and the peak memory in kilobytes of `xslt2xq transform`,
# whose stylesheet looks at nothing of the document, and of `xmllint --noout`. Each is the best of three runs.
#
# usage: bench/read.sh BYTES    a catalogue of about so many bytes, made by bench/catalogue.py
#        bench/read.sh FILE     this document
set -eu

top=$(dirname "$(dirname "$(readlink -f "${BASH_SOURCE[0]}")")")
data=$top/bench/data
source "$top/bench/measure.sh"

case ${1-} in
'')
    echo "usage: bench/read.sh BYTES | bench/read.sh FILE" >&2
    exit 2
    ;;
*[!0-9]*)
    document=$(readlink -f "$1")
    ;;
*)
    mkdir -p "$data/catalogue-$1"
    document=$data/catalogue-$1/d.xml
    [[ -s $document ]] || python3 "$top/bench/catalogue.py" "$1" "$document"
    ;;
esac

mkdir -p "$data"
sheet=$data/one-element.xsl
printf '%s' '<xsl:stylesheet version="2.0" xmlns:xsl="http://www.w3.org/1999/XSL/Transform">' \
    '<xsl:template match="/"><r/></xsl:template></xsl:stylesheet>' >"$sheet"

# Proves and builds it where need be.
"$top/xslt2xq" transform "$sheet" "$document" >/dev/null || true

printf '%s: %d bytes\n' "$document" "$(wc -c <"$document")"
measure xslt2xq "$top/crates/xslt2xq/out/xslt2xq" transform "$sheet" "$document"
measure xmllint xmllint --noout "$document"
