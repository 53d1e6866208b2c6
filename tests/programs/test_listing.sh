#!/usr/bin/env bash
# Tries the listing program: the listing, refusals, and an input and an output that fail. It has no status to give: it
# ends with 0 always, and a failure is a line on standard error. Usage: test_listing.sh PROGRAM
set -uo pipefail
program=$1
here=$(dirname "$0")
# shellcheck source=tests/programs/trials.sh
. "$here/trials.sh"

a='2 2 4 1 1 2 4 0 0 2 1 0 3 0 1 0 0 1 0'
expect 'pattern A' 0 'states 2 edges 4
0 1 0 0 0 3
1 1 2 0 2 0
0 0 1
0 1 0
1 0 1
1 1 0' '' "$program" <<<"$a"

# refused NUMBER INPUT
refused() {
    expect "refusal $1" 0 "refused $1" '' "$program" <<<"$2"
}
refused 1 'x'
refused 1 '65536'
refused 1 $'2\t2'
refused 1 '-1'
refused 1 "$(seq -s ' ' 12356)"
refused 2 ''
refused 2 '1 1'
refused 3 '33 1 0'
refused 4 '1 17 0'
refused 5 '1 1 4097'
refused 6 "$a 0"
refused 7 '1 1 0 4 0'
refused 8 '1 1 1 0 1 1 0 0'
refused 9 '1 1 1 0 0 0 0 0'
refused 10 '2 1 2 1 0 2 1 0 0 2 0 1 0'
refused 11 "$(rings 9 7 1)"
refused 12 "$(rings 8 7 5)"
refused 1 $'2 2\r\n'
refused 1 $'\xef\xbb\xbf'"$a"
expect 'refusal 1, a zero byte' 0 'refused 1' '' "$program" < <(printf '%s\0' "$a")
expect 'leading zeros' 0 'refused 2' '' "$program" < <(printf '0%.0s' $(seq 700))
expect 'as many states as there is room for' 0 'states 1024 edges 1024' '' bash -c "\"\$0\" | head -n 1" "$program" < <(rings 8 7 1)
expect 'an input that cannot be read' 0 '' 'listing: reading standard input failed' "$program" </
expect 'a closed input' 0 '' 'listing: reading standard input failed' "$program" <&-
expect 'a full disk' 0 '' 'listing: writing standard output failed' sh -c "exec \"\$0\" >/dev/full" "$program" <<<"$a"
expect 'a closed output' 0 '' 'listing: writing standard output failed' sh -c "exec \"\$0\" >&-" "$program" <<<"$a"
end_trials 'the listing program'
