# What the scripts beside it share: read it with `source`.

# Prints the smallest user time and the smallest peak of three runs, and the status of the last.
measure() {
    local name=$1 times status=0
    shift
    times=$(mktemp)
    for _ in 1 2 3; do
        status=0
        /usr/bin/time -q -a -o "$times" -f '%U %M' "$@" >/dev/null 2>&1 || status=$?
    done
    awk -v name="$name" -v status="$status" '
        NR == 1 || $1 < user { user = $1 }
        NR == 1 || $2 < peak { peak = $2 }
        END { printf "%-12s user %7.2f s   peak %9d kB   status %d\n", name, user, peak, status }' "$times"
    rm -f "$times"
}
