# shellcheck shell=bash
# What the tests of the programs share; it is sourced. Each trial holds a program to its status, its standard output and
# its standard error, whole.
folder=$(mktemp -d)
trap 'rm -rf "$folder"' EXIT
tried=0
failed=0

# wrong NAME WHAT GOT: notes a trial that failed
wrong() {
    printf 'FAILED: %s: %s\n%s\n' "$1" "$2" "$3"
    failed=1
}

# expect NAME STATUS OUTPUT ERRORS COMMAND... <INPUT. Output and errors are compared without the newlines at their ends,
# and each ends with one, where there is anything.
expect() {
    local name=$1 status=$2 output=$3 errors=$4 got
    shift 4
    "$@" >"$folder/out" 2>"$folder/err"
    got=$?
    tried=$((tried + 1))
    if [ "$got" -ne "$status" ]; then
        wrong "$name" "its status is not $status" "$got"
    elif [ "$(cat "$folder/out")" != "$output" ]; then
        wrong "$name" 'it printed' "$(head -c 3000 "$folder/out")"
    elif [ "$(cat "$folder/err")" != "$errors" ]; then
        wrong "$name" 'on standard error it printed' "$(head -c 3000 "$folder/err")"
    elif [ -n "$(tail -qc 1 "$folder/out" "$folder/err")" ]; then
        wrong "$name" 'its last line is not ended' ''
    fi
}

# rings P R K: a pattern of p outer states and r inner ones, each kind in a ring, and an accepting one that leads into the
# inner ring; each of k letters moves every state on. Its complement has p * 2^r states and k times as many edges.
rings() {
    local p=$1 r=$2 k=$3 n=$(($1 + $2 + 1)) q c flags target
    echo "$n $k $((n * k))"
    for q in $(seq 0 $((n - 1))); do
        flags=0
        if [ "$q" -eq 0 ] || { [ "$q" -ge "$p" ] && [ "$q" -lt $((p + r)) ]; }; then flags=1; fi
        if [ "$q" -eq $((p + r)) ]; then flags=2; fi
        echo "$flags $((q * k + 1))"
    done
    for q in $(seq 0 $((n - 1))); do
        target=$((q + 1))
        if [ "$target" -eq "$p" ]; then target=0; fi
        if [ "$target" -ge $((p + r)) ]; then target=$p; fi
        for c in $(seq 0 $((k - 1))); do echo "$c $target $((c + 1 < k ? q * k + c + 2 : 0))"; done
    done
}

# end_trials NAME: the line that says how it went; the status
end_trials() {
    if [ "$failed" -eq 0 ]; then
        echo "ok: $1, $tried trials"
    fi
    exit "$failed"
}
