#!/usr/bin/env bash
# Tries tools/draw.py: the picture of pattern A, and a sentence for each bad input. Usage: test_draw.sh
set -uo pipefail
cd "$(dirname "$0")/../.." || exit 2
# shellcheck source=tests/programs/trials.sh
. tests/programs/trials.sh

listed='states 2 edges 4
0 1 0 0 0 3
1 1 2 0 2 0
0 0 1
0 1 0
1 0 1
1 1 0'
a=examples/pattern-a.txt
expect 'pattern A' 0 "$(cat docs/pattern-A.svg)" '' tools/draw.py "$a" <<<"$listed"

# draw SENTENCE PATTERN <LISTING: a bad listing or pattern, the latter as text
draw() {
    printf '%s' "$2" >"$folder/pattern"
    expect "$1" 1 '' "draw.py: $1" timeout 20 tools/draw.py "$folder/pattern"
}
good=$(cat "$a")
draw 'the pattern is refused by 10, so there is nothing to draw' 'x' <<<'refused 10'
draw 'the pattern is refused by 1, so there is nothing to draw' 'x' <<<'refused 1'
cut='the listing is cut off: its last line has no end'
draw "$cut" 'x' < <(printf 'refused 1')
draw "$cut" "$good" < <(printf '%s' "$listed")
draw 'standard input is no listing: pass on what the listing program prints' "$good" </dev/null
draw 'standard input is no listing: pass on what the listing program prints' "$good" <<<'hello'
draw 'standard input is no listing: pass on what the listing program prints' "$good" <<<'states 9999999999 edges 4'
draw 'standard input is no listing: pass on what the listing program prints' "$good" <<<$'refused 10\nstates 2 edges 4'
draw 'the listing has 1 lines, and 65535 states and 65535 edges take 131071' "$good" <<<'states 65535 edges 65535'
draw 'the listing has no states, and every complement has one' "$good" <<<'states 0 edges 0'
draw "the listing has 'x' where a number should stand" "$good" <<<"${listed/3/x}"
draw "the listing's states are not numbered lines of six fields with flags from 0 to 3" "$good" <<<"${listed/0 3/0 4}"
draw "the listing's edges are not lines of source, letter and target" "$good" <<<"${listed/0 0 1/0 0 2}"
draw "the listing's edges are not lines of source, letter and target" "$good" <<<"${listed/0 0 1/0 16 1}"
draw "the listing has '' where a number should stand" "$good" <<<"${listed/0 0 1/0  1}"
draw 'the listing is no plain text: byte 0 is 0xff' "$good" <<<$'\xff'
draw 'the listing is longer than 4000000 bytes' "$good" < <(yes 2>/dev/null)
draw 'the pattern has fewer than three words' '' <<<"$listed"
draw "the pattern has 'x' where a number should stand" '2 x' <<<"$listed"
draw "the pattern has '-1' where a number should stand" '2 2 -1' <<<"$listed"
draw "the pattern has '2\\t2' where a number should stand" $'2\t2 4' <<<"$listed"
draw 'the pattern is no plain text: byte 0 is 0xef' $'\xef\xbb\xbf1' <<<"$listed"
draw 'the pattern is no valid table: its first words are 65535 2 4, and it has 3' '65535 2 4' <<<"$listed"
draw 'the pattern is no valid table: a link leads to record 9 of 1' '1 1 1 0 9 0 0 0' <<<"$listed"
draw 'the pattern is no valid table: record 1 is 0 0 1' '1 1 1 0 1 0 0 1' <<<"$listed"
draw 'the pattern is no valid table: record 1 is 0 7 0' '1 1 1 0 1 0 7 0' <<<"$listed"
draw 'the pattern is no valid table: record 1 is 1 0 0' '1 1 1 0 1 1 0 0' <<<"$listed"
draw 'the pattern is no valid table: a state has flags 4' '1 1 0 4 0' <<<"$listed"
expect 'a pattern that is not there' 1 '' 'draw.py: none: No such file or directory' tools/draw.py none <<<"$listed"
expect 'a pattern without a name' 1 '' "draw.py: '': No such file or directory" tools/draw.py '' <<<"$listed"
expect 'a pattern that is a folder' 1 '' 'draw.py: docs: Is a directory' tools/draw.py docs <<<"$listed"
expect 'a pattern that cannot be read' 1 '' 'draw.py: /proc/self/mem: Input/output error' tools/draw.py /proc/self/mem <<<"$listed"
expect 'an endless pattern' 1 '' 'draw.py: the pattern is longer than 4000000 bytes' timeout 20 tools/draw.py /dev/zero <<<"$listed"
expect 'a full disk' 1 '' 'draw.py: standard output: No space left on device' sh -c "exec tools/draw.py $a >/dev/full" <<<"$listed"
expect 'a name that could steer a terminal' 1 '' "draw.py: 'a\\nb\\x1b[31m': No such file or directory" \
    tools/draw.py $'a\nb\x1b[31m' <<<"$listed"
expect 'a closed output' 1 '' 'draw.py: standard output is closed' sh -c "exec tools/draw.py $a >&-" <<<"$listed"
expect 'a closed input' 1 '' 'draw.py: standard input is closed' sh -c "exec tools/draw.py $a <&-"
help="Draws a pattern and its complement, from the pattern's words and what the listing program prints of it.

    target/bin/listing < PATTERN | tools/draw.py PATTERN > picture.svg

States stand in a row. A double ring accepts, an arrow from the left marks an initial state; an edge's label lists its letters.
For larger automata let \`tubochre-bench --dot\` write a graph, and any viewer of DOT lay it out."
expect 'no argument' 1 '' "$help" tools/draw.py
expect 'two arguments' 1 '' "$help" tools/draw.py "$a" "$a" <<<"$listed"
expect '--help' 0 "$help" '' tools/draw.py --help </dev/null
expect '--help, without an input' 0 "$help" '' sh -c 'exec tools/draw.py --help <&-'
expect '--help, without texts in the code' 0 "$help" '' env PYTHONOPTIMIZE=2 tools/draw.py --help </dev/null
end_trials tools/draw.py
