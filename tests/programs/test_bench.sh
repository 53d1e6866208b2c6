#!/usr/bin/env bash
# Tries tubochre-bench: what it prints, where, and its exit statuses. Usage: test_bench.sh PROGRAM LISTING
set -uo pipefail
program=$1
listing=$2
here=$(dirname "$0")
# shellcheck source=tests/programs/trials.sh
. "$here/trials.sh"

zeros() { printf '0%.0s' $(seq "$1"); }
a='2 2 4 1 1 2 4 0 0 2 1 0 3 0 1 0 0 1 0'
echo "$a" >"$folder/a"
passes='pattern: passes the check (states 2, letters 2, records 4)
complement: states 2, edges 4'

# ---- Patterns, lassos, states and graphs.

expect 'a file' 0 "$passes" '' "$program" "$folder/a"
expect 'standard input' 0 "$passes" '' "$program" - <<<"$a"
expect 'leading zeros' 0 "$passes" '' "$program" - <<<"$(zeros 700)$a"
expect 'no newline at the end' 0 "$passes" '' "$program" - < <(printf '%s' "$a")
expect 'a pipe with a name' 0 "$passes" '' "$program" <(echo "$a")
expect 'blanks everywhere' 0 "$passes" '' "$program" - <<<"
  ${a// /  
}

"
expect 'lassos' 0 "$passes
lasso 1 (- 0): the pattern takes it, the complement does not
lasso 2 (- 1): the complement takes it, the pattern does not
lasso 3 (1 0): the pattern takes it, the complement does not
lasso 4 (0,1 1,0,): the complement takes it, the pattern does not" '' "$program" "$folder/a" '' 0 - 1 1 0 0,1 1,0,
states="$passes
0 1 0 0 0 3
1 1 2 0 2 0
lasso 1 (- 0): the pattern takes it, the complement does not"
expect 'states' 0 "$states" '' "$program" --states "$folder/a" - 0
expect 'an option behind the words' 0 "$states" '' "$program" "$folder/a" - 0 --states
expect 'words behind --' 0 "$states" '' "$program" --states -- "$folder/a" - 0
(cd "$folder" && cp a ./-a)
expect 'a file that looks like an option' 0 "$passes" '' env -C "$folder" "$(realpath "$program")" -- -a

pattern_graph='digraph pattern {
    rankdir=LR;
    node [shape=circle];
    s0 [label="0"];
    i0 [shape=none, label=""];
    i0 -> s0;
    s1 [label="1", peripheries=2];
    s0 -> s0 [label="0,1"];
    s0 -> s1 [label="0"];
    s1 -> s1 [label="0"];
}'
# complement_from SETS: how the graph of a complement begins whose first state is initial and accepting, and has these sets
complement_from() {
    printf '%s' 'digraph complement {
    rankdir=LR;
    node [shape=ellipse];
    label="below each number its sets N C S B";
    s0 [label="0\n'"$1"'", peripheries=2];
    i0 [shape=none, label=""];
    i0 -> s0;'
}
complement_graph="$(complement_from '{0} {} {} {}')"'
    s1 [label="1\n{0} {1} {} {1}"];
    s0 -> s0 [label="1"];
    s0 -> s1 [label="0"];
    s1 -> s0 [label="1"];
    s1 -> s1 [label="0"];
}'
expect 'the graph of a pattern' 0 "$pattern_graph" '' "$program" --dot pattern "$folder/a"
expect 'the graph of a complement' 0 "$complement_graph" '' "$program" --dot=complement "$folder/a"
expect 'a graph without edges' 0 'digraph pattern {
    rankdir=LR;
    node [shape=circle];
    s0 [label="0"];
}' '' "$program" --dot pattern - <<<'1 1 0 0 0'
expect 'a record twice is one arrow with one letter' 0 'digraph pattern {
    rankdir=LR;
    node [shape=circle];
    s0 [label="0", peripheries=2];
    i0 [shape=none, label=""];
    i0 -> s0;
    s0 -> s0 [label="0"];
}' '' "$program" --dot pattern - <<<'1 1 2 3 1 0 0 2 0 0 0'
if command -v dot >/dev/null; then
    for graph in pattern complement; do
        "$program" --dot "$graph" "$folder/a" | dot -Tsvg >/dev/null || wrong 'a viewer' 'dot does not take the graph' "$graph"
    done
fi

# ---- Refusals of the text: 1.

# text NAME LINE COLUMN SENTENCE INPUT
text() {
    expect "$1" 1 "pattern: refused (1) in line $2, column $3: $4" '' "$program" - <<<"$5"
}
divide='and only spaces and newlines divide numbers'
text 'a tab' 2 2 "a tab stands here, $divide" $'2 2\n4\t1'
text 'CR LF' 1 39 'the line ends with CR LF, and it has to end with LF alone' "${a%0}0 "$'\r\n'
text 'CR LF behind a number' 1 2 'the line ends with CR LF, and it has to end with LF alone' $'2\r\n2 4\r\n'
text 'a carriage return' 1 2 "a carriage return stands here, $divide" $'2\r2'
expect 'a carriage return at the end' 1 "pattern: refused (1) in line 1, column 2: a carriage return stands here, $divide" '' \
    "$program" - < <(printf '2\r')
text 'a byte order mark' 1 1 'the file begins with a byte order mark, and may not' $'\xef\xbb\xbf'"$a"
text 'half a byte order mark' 1 1 'the byte 0xef is no digit, space or newline' $'\xef\xbb'"$a"
text 'a byte order mark later' 1 3 'the byte 0xef is no digit, space or newline' $'2 \xef\xbb\xbf'
text 'UTF-16, little end first' 1 1 'the file begins with a byte order mark of UTF-16' $'\xff\xfe2'
text 'UTF-16, big end first' 1 1 'the file begins with a byte order mark of UTF-16' $'\xfe\xff2'
text 'a byte order mark of UTF-16 later' 1 3 'the byte 0xff is no digit, space or newline' $'2 \xff\xfe'
minus='a minus sign stands here, and a word is a number from 0 to 65535'
text 'a minus sign' 1 3 "$minus" '2 -2'
text 'a minus sign behind a number' 1 2 "$minus" '2-'
text 'a plus sign' 1 3 "'+' is no digit, space or newline" '2 +2'
text 'a form feed' 2 1 'the byte 0x0c is no digit, space or newline' $'2\n\f2'
text 'a hard space' 1 2 'the byte 0xc2 is no digit, space or newline' $'2\xc2\xa02'
expect 'a zero byte' 1 'pattern: refused (1) in line 1, column 2: the byte 0x00 is no digit, space or newline' '' \
    "$program" - < <(printf '2\0002')
text 'a letter' 1 1 "'x' is no digit, space or newline" 'x'
text 'a letter behind a number' 3 3 "'x' is no digit, space or newline" $'2\n\n12x'
text 'a comma' 1 2 "',' is no digit, space or newline" '2,2'
text 'a byte above 127' 1 3 'the byte 0x80 is no digit, space or newline' $'2 \x80'
text '65536' 1 5 'the number 65536 is above 65535' '1 1 65536'
text 'zeros before 65536' 2 1 'the number 65536 is above 65535' $'1 1\n00000065536 1'
text 'a long number' 1 1 'the number 12345678901234567890... is above 65535' '12345678901234567890123'
text 'a very long number' 1 3 'the number 90000000000000000000... is above 65535' "1 $(zeros 500)9$(zeros 500) x"
text 'too many numbers' 1 63025 'number 12356 begins here, and a pattern has at most 12355' "$(seq -s ' ' 12356)"
expect 'endless zero bytes' 1 'pattern: refused (1) in line 1, column 1: the byte 0x00 is no digit, space or newline' '' \
    "$program" /dev/zero
expect 'endless digits' 1 'pattern: refused (1) in line 1, column 1: the number 99999999999999999999... is above 65535' '' \
    "$program" - < <(yes 9 | tr -d '\n' 2>/dev/null)

# ---- Refusals of the table: 2 to 10.

# table NUMBER PLACE SENTENCE INPUT; the place is a column in line 1, or 0 where there is none
table() {
    local where=" in line 1, column $2"
    [ "$2" -gt 0 ] || where=
    expect "$3" 1 "pattern: refused ($1)$where: $3" '' "$program" - <<<"$4"
}
table 2 0 'the number of words is 0, and a table has at least 3' ''
table 2 0 'the number of words is 2, and a table has at least 3' '1 1'
table 3 1 'the number of states is 0, and a pattern has 1 to 32' '0 0 0'
table 3 1 'the number of states is 33, and a pattern has 1 to 32' '33 1 0'
table 4 3 'the number of letters is 0, and a table has 1 to 16' '1 0 0'
table 4 3 'the number of letters is 17, and a table has 1 to 16' '1 17 0'
table 5 5 'the number of records is 4097, and a pattern has at most 4096' '1 1 4097'
length='and by those of states and records it is'
table 6 0 "the number of words is 18, $length 3 + 2 * 2 + 3 * 4 = 19" "${a% 0}"
table 6 0 "the number of words is 20, $length 3 + 2 * 2 + 3 * 4 = 19" "$a 0"
table 7 11 'state 1 has flags 4, and flags are 0 to 3' '2 1 0 3 0 4 0'
table 8 11 'record 1 has letter 1, and the letters are 0 to 0' '1 1 1 0 1 1 0 0'
table 8 19 'record 2 has target 1, and the states are 0 to 0' '1 1 2 0 1 0 0 2 0 1 0'
table 9 9 'state 0 has head 2, and the number of records is 1' '1 1 1 0 2 0 0 0'
table 9 15 'record 1 has next 2, and the number of records is 1' '1 1 1 0 1 0 0 2'
forward="and a next is 0 or larger than its own record's number"
table 9 15 "record 1 has next 1, $forward" '1 1 1 0 0 0 0 1'
table 9 21 "record 2 has next 1, $forward" '1 1 2 0 2 0 0 0 0 0 1'
table 9 0 'record 1 is in no chain: no head and no next names it' '1 1 1 0 0 0 0 0'
twice='record 1 is named twice, by the head of state 0 and by the head of state 1'
table 9 13 "$twice" '2 1 1 0 1 0 1 0 0 0'
twice='record 2 is named twice, by the head of state 1 and by the next of record 1'
table 9 19 "$twice" '2 1 2 0 1 0 2 0 0 2 0 0 0'
twice='record 3 is named twice, by the next of record 1 and by the next of record 2'
table 9 25 "$twice" '2 1 3 0 1 0 2 0 0 3 0 0 3 0 0 0'
# fork STATE LETTER TARGET RECORD TARGET RECORD: the sentence; its place is the second target
fork() {
    printf 'the pattern is not semi-deterministic: state %s is accepting or behind an accepting one, and ' "$1"
    printf 'on letter %s it leads to state %s (record %s) and to state %s (record %s)' "${@:2}"
}
fork1=$(fork 1 0 0 1 1 2)
table 10 23 "$fork1" '2 1 2 1 0 2 1 0 0 2 0 1 0'
table 10 45 "$(fork 2 1 0 4 2 5)" '3 2 5 1 1 2 3 0 4 0 0 2 1 1 0 0 2 0 1 0 5 1 2 0'
table 10 23 "$(fork 0 0 0 1 1 2)" '2 1 2 2 1 0 0 0 0 2 0 1 0'
# Of its targets the first two that differ, in the order of the records; repeats and other letters are passed over.
table 10 33 "$(fork 1 0 2 1 0 3)" '3 1 4 0 0 2 1 0 0 0 2 2 0 2 3 0 0 4 0 1 0'
table 10 39 "$(fork 1 1 2 2 0 4)" '3 2 5 0 0 2 1 0 0 0 1 2 1 2 3 1 2 4 1 0 5 0 1 0'
# The largest numbers: state 31, letter 15, and the last two of 4,096 records.
{
    echo 32 16 4096
    for _ in $(seq 31); do echo 0 0; done
    echo 2 1
    for r in $(seq 4094); do echo "14 31 $((r + 1))"; done
    echo 15 30 4096
    echo 15 31 0
} >"$folder/last"
expect 'the last place of all' 1 "pattern: refused (10) in line 4129, column 4: $(fork 31 15 30 4095 31 4096)" '' \
    "$program" "$folder/last"

# Of several faults the first is named: by the rules, and of one refusal by its place in the table.
table 7 7 'state 0 has flags 4, and flags are 0 to 3' '2 1 0 4 0 5 0'
table 8 11 'record 1 has letter 3, and the letters are 0 to 0' '1 1 1 0 1 3 4 0'
table 8 13 'record 1 has target 2, and the states are 0 to 0' '1 1 2 0 1 0 2 2 1 0 0'
table 9 9 'state 0 has head 3, and the number of records is 2' '2 1 2 0 3 0 4 0 0 2 0 0 1'
table 9 15 "record 1 has next 1, $forward" '1 1 2 0 1 0 0 1 0 0 9'
table 9 0 'record 1 is in no chain: no head and no next names it' '1 1 2 0 0 0 0 0 0 0 0'
# Of several forks the one of the smallest state, though a larger has a smaller letter; of its letters the smallest; and
# none of a state that is neither accepting nor behind an accepting one, though it comes first.
table 10 27 "$(fork 1 1 1 1 2 2)" '3 2 4 1 0 2 1 2 3 1 1 2 1 2 0 0 1 4 0 2 0'
table 10 35 "$(fork 1 0 0 3 1 4)" '2 2 4 1 0 2 1 1 0 2 1 1 3 0 0 4 0 1 0'
table 10 39 "$(fork 1 1 1 3 2 4)" '3 2 4 1 1 2 3 0 0 0 0 2 0 1 0 1 1 4 1 2 0'
table 10 45 "$(fork 0 1 0 4 2 5)" '3 2 6 1 4 0 1 2 6 0 1 2 0 2 3 1 0 0 1 0 5 1 2 0 0 0 0'
table 4 3 'the number of letters is 0, and a table has 1 to 16' '1 0 5000 9'
expect 'a place in a later line' 1 'pattern: refused (8) in line 4, column 3: record 1 has target 7, and the states are 0 to 1' \
    '' "$program" - <<<$'2 1 1\n0 1\n0 0\n0 7 0'
expect 'a fork in a later line' 1 "pattern: refused (10) in line 5, column 3: $fork1" \
    '' "$program" - <<<$'2 1 2\n1 0\n2 1\n0 0 2\n0 1 0'
# State 1 forks on letter 1 and then on letter 2; state 0 forks too, and no accepting state reaches it.
expect 'a forking pattern is drawn all the same, with the fork in red' 1 'digraph pattern {
    rankdir=LR;
    node [shape=circle];
    s0 [label="0"];
    i0 [shape=none, label=""];
    i0 -> s0;
    s1 [label="1", peripheries=2];
    s2 [label="2"];
    s0 -> s0 [label="1"];
    s0 -> s1 [label="1"];
    s1 -> s1 [label="0,1,2", color=red];
    s1 -> s2 [label="1,2", color=red];
    s2 -> s1 [label="1"];
}' "pattern: refused (10) in line 1, column 45: $(fork 1 1 1 4 2 5)" "$program" --dot pattern - \
    <<<'3 3 8 1 1 2 3 0 8 1 0 2 1 1 0 0 1 4 1 1 5 1 2 6 2 1 7 2 2 0 1 1 0'
expect 'its complement is not' 1 '' "pattern: refused (10) in line 1, column 23: $fork1" \
    "$program" --dot complement - <<<'2 1 2 1 0 2 1 0 0 2 0 1 0'
expect 'a refused text is not drawn' 1 '' "pattern: refused (1) in line 1, column 1: 'x' is no digit, space or newline" \
    "$program" --dot pattern - <<<'x'
expect 'a refused table is not drawn' 1 '' \
    'pattern: refused (3) in line 1, column 1: the number of states is 0, and a pattern has 1 to 32' \
    "$program" --dot pattern - <<<'0 1 0'

# ---- Refusals of the complement: 11 and 12.

rings 7 10 1 >"$folder/rings"
expect 'a complement of 7,168 states' 0 'pattern: passes the check (states 18, letters 1, records 18)
complement: states 7168, edges 7168
lasso 1 (- 0): the complement takes it, the pattern does not' '' "$program" "$folder/rings" - 0
count=$("$program" --states "$folder/rings" | wc -l)
[ "$count" -eq 7170 ] || wrong 'all states are printed' 'lines' "$count"
rings 8 7 2 >"$folder/rings"
expect 'the states as the listing has them' 0 'pattern: passes the check (states 16, letters 2, records 32)
complement: states 1024, edges 2048
'"$("$listing" <"$folder/rings" | sed -n '2,1025p')" '' "$program" --states "$folder/rings"
rings 7 10 1 >"$folder/rings"
count=$("$program" --dot complement "$folder/rings" | grep -c -- '-> s.*label')
[ "$count" -eq 7168 ] || wrong 'all edges are drawn' 'arrows' "$count"
# The program lends room for as many states and edges as a table can have.
rings 15 12 1 >"$folder/large"
expect 'a complement of 61,440 states' 0 'pattern: passes the check (states 28, letters 1, records 28)
complement: states 61440, edges 61440' '' "$program" "$folder/large"
expect 'state 31 in a set' 0 "$(complement_from '{31} {} {} {}')"'
    s1 [label="1\n{} {} {} {}", peripheries=2];
    s0 -> s1 [label="0"];
    s1 -> s1 [label="0"];
}' '' "$program" --dot complement - <<<"32 1 0 $(zeros 62 | sed 's/0/0 /g') 1 0"
# A limit on memory, where the program bears one (its sanitizers do not).
limited() { (ulimit -v 100000 && exec "$program" "$@"); }
if limited --version >/dev/null 2>&1; then
    expect 'too little memory' 2 'pattern: passes the check (states 18, letters 1, records 18)
complement: states 7168, edges 7168' \
        "tubochre-bench: a lasso's work words: there is not enough memory: it takes 117440512 times 4 bytes" \
        limited "$folder/rings" - "$(zeros 4096)"
    expect 'no memory is asked for where a part is too long' 1 'pattern: passes the check (states 18, letters 1, records 18)
complement: states 7168, edges 7168
lasso 1 (- '"$(zeros 9999)"'): refused (14): the loop has 9999 letters, and a part has at most 4096' '' \
        limited "$folder/rings" - "$(zeros 9999)"
fi
rings 1 17 1 >"$folder/rings"
many='complement: refused (11): it has more than 65535 states, the most that a table has'
expect 'too many states' 1 "pattern: passes the check (states 19, letters 1, records 19)
$many" '' "$program" "$folder/rings" - 0
expect 'too many states for a graph' 1 '' "$many" "$program" --dot complement "$folder/rings"
rings 1 12 16 >"$folder/rings"
expect 'too many edges' 1 'pattern: passes the check (states 14, letters 16, records 224)
complement: refused (12): it has more than 65535 edges, the most that a table has' '' "$program" "$folder/rings"

# ---- Refusals of a lasso: 13 to 15.

expect 'lassos refused' 1 "$passes
lasso 1 (1 -): refused (13): the loop is empty
lasso 2 (- 12,): refused (15): letter 12 stands at place 1 of the loop, and the letters are 0 to 1
lasso 3 (- 1): the complement takes it, the pattern does not
lasso 4 (0102 3): refused (15): letter 2 stands at place 4 of the prefix, and the letters are 0 to 1" '' \
    "$program" "$folder/a" 1 '' - 12, - 1 0102 3
expect 'a refused lasso before a good one' 1 "$passes
lasso 1 (1 -): refused (13): the loop is empty
lasso 2 (- 1): the complement takes it, the pattern does not" '' "$program" "$folder/a" 1 '' - 1
# Letters that fit into no byte are refused too, though the low byte of 256 is 0, which is a letter here, and of 257 1.
expect 'the largest numbers that can be letters' 1 "$passes
lasso 1 (- 255,): refused (15): letter 255 stands at place 1 of the loop, and the letters are 0 to 1
lasso 2 (- 256,): refused (15): letter 256 stands at place 1 of the loop, and the letters are 0 to 1
lasso 3 (- 0): the pattern takes it, the complement does not
lasso 4 (0,65535 1): refused (15): letter 65535 stands at place 2 of the prefix, and the letters are 0 to 1
lasso 5 (- 257,): refused (15): letter 257 stands at place 1 of the loop, and the letters are 0 to 1" '' \
    "$program" "$folder/a" - 255, - 256, - 0 0,65535 1 - 257,
expect 'both parts too long' 1 "$passes
lasso 1 ($(zeros 4097) $(zeros 4098)): refused (14): the prefix has 4097 letters, and a part has at most 4096" '' \
    "$program" "$folder/a" "$(zeros 4097)" "$(zeros 4098)"
expect 'a loop of 4,097' 1 "$passes
lasso 1 (- $(zeros 4097)): refused (14): the loop has 4097 letters, and a part has at most 4096" '' \
    "$program" "$folder/a" - "$(zeros 4097)"
expect 'a prefix of 5,000' 1 "$passes
lasso 1 ($(zeros 5000) 1): refused (14): the prefix has 5000 letters, and a part has at most 4096" '' \
    "$program" "$folder/a" "$(zeros 5000)" 1
nought=$(printf '0,%.0s' $(seq 4096))
expect 'a loop of 4,096 numbers' 0 "$passes
lasso 1 (- $nought): the pattern takes it, the complement does not" '' "$program" "$folder/a" - "$nought"
expect 'a loop of 4,097 numbers' 1 "$passes
lasso 1 (- ${nought}1): refused (14): the loop has 4097 letters, and a part has at most 4096" '' \
    "$program" "$folder/a" - "${nought}1"
expect 'both parts of 4,096' 0 "$passes
lasso 1 ($(zeros 4096) $(zeros 4096)): the pattern takes it, the complement does not" '' "$program" "$folder/a" "$(zeros 4096)" "$(zeros 4096)"

# ---- Trays.

# Each line here is tried with the blanks and lines that may stand around it.
answers='lasso 1 (- 0): the pattern takes it, the complement does not
lasso 2 (- 1): the complement takes it, the pattern does not
lasso 3 (0,1 1,0,): the complement takes it, the pattern does not
tray: lassos 3, the pattern takes 1, the complement takes 2, refused 0'
printf -- '- 0\n- 1\n0,1 1,0,\n' >"$folder/lassos"
expect 'a tray' 0 "$passes
$answers" '' "$program" "$folder/a" --tray "$folder/lassos"
expect 'a tray before the pattern' 0 "$passes
$answers" '' "$program" --tray="$folder/lassos" "$folder/a"
expect 'a tray from standard input' 0 "$passes
$answers" '' "$program" "$folder/a" --tray - <"$folder/lassos"
expect 'a tray beside a pattern from standard input' 0 "$passes
$answers" '' "$program" - --tray "$folder/lassos" <<<"$a"
expect 'a tray and states' 0 "$passes
0 1 0 0 0 3
1 1 2 0 2 0
$answers" '' "$program" --states "$folder/a" --tray "$folder/lassos"
(cd "$folder" && cp lassos ./-l)
expect 'a tray with a name like an option' 0 "$passes
$answers" '' env -C "$folder" "$(realpath "$program")" a --tray -l

# tray NAME TEXT: a text of the three lassos, as printf's %b takes it
tray() {
    expect "$1" 0 "$passes
$answers" '' "$program" "$folder/a" --tray - < <(printf %b "$2")
}
tray 'no newline at the end' '- 0\n- 1\n0,1 1,0,'
tray 'blank lines' '\n\n- 0\n  \n- 1\n\t\n\n0,1 1,0,\n\n'
tray 'comments' '# one\n- 0\n#- 0\n  # - 0\n- 1\n#\n##\n0,1 1,0,\n# \x00\xff none'
tray 'blanks around and between' '  -   0\n-\t1\t \n \t0,1 \t 1,0,  '
tray 'CR LF' '- 0\r\n\r\n- 1\r\n# one\r\n0,1 1,0,\r\n'

expect 'the example' 1 "$passes
lasso 1 (- 0): the pattern takes it, the complement does not
lasso 2 (- 1): the complement takes it, the pattern does not
lasso 3 (11 01): the complement takes it, the pattern does not
lasso 4 (1101 0): the pattern takes it, the complement does not
lasso 5 (0 012): refused (15) in line 8, column 5: letter 2 stands at place 3 of the loop, and the letters are 0 to 1
lasso 6 (1 -): refused (13) in line 9, column 3: the loop is empty
tray: lassos 6, the pattern takes 2, the complement takes 2, refused 2" '' \
    "$program" "$here/../../examples/pattern-a.txt" --tray "$here/../../examples/lassos.txt"
expect 'all are refused' 1 "$passes
lasso 1 (- -): refused (13) in line 1, column 3: the loop is empty
lasso 2 (0,255 1): refused (15) in line 3, column 4: letter 255 stands at place 2 of the prefix, and the letters are 0 to 1
lasso 3 (2 2): refused (15) in line 4, column 1: letter 2 stands at place 1 of the prefix, and the letters are 0 to 1
tray: lassos 3, the pattern takes 0, the complement takes 0, refused 3" '' \
    "$program" "$folder/a" --tray - < <(printf -- '- -\n\n 0,255 1\n2 2')
# The column is that of the letter: by digits, by commas with numbers of any width, and in the first part that has one.
expect 'places of letters' 1 "$passes
lasso 1 (0012 3): refused (15) in line 1, column 6: letter 2 stands at place 4 of the prefix, and the letters are 0 to 1
lasso 2 (01 0,001,12,9): refused (15) in line 2, column 10: letter 12 stands at place 3 of the loop, and the letters are 0 to 1
lasso 3 (3,1 0): refused (15) in line 3, column 1: letter 3 stands at place 1 of the prefix, and the letters are 0 to 1
lasso 4 (- 00,1,7,): refused (15) in line 4, column 8: letter 7 stands at place 3 of the loop, and the letters are 0 to 1
tray: lassos 4, the pattern takes 0, the complement takes 0, refused 4" '' \
    "$program" "$folder/a" --tray - < <(printf -- '  0012 3\n01 0,001,12,9\n3,1 0\n- 00,1,7,\n')
expect 'the largest numbers that can be letters in a tray' 1 "$passes
lasso 1 (- 256,): refused (15) in line 1, column 3: letter 256 stands at place 1 of the loop, and the letters are 0 to 1
lasso 2 (- 0): the pattern takes it, the complement does not
lasso 3 (- 65535,): refused (15) in line 3, column 3: letter 65535 stands at place 1 of the loop, and the letters are 0 to 1
lasso 4 (1 1): the complement takes it, the pattern does not
tray: lassos 4, the pattern takes 1, the complement takes 1, refused 2" '' \
    "$program" "$folder/a" --tray - < <(printf -- '- 256,\n- 0\n- 65535,\n1 1\n')
# Takes only 15 for ever. Its complement begins with (0,1,0,1), which 15 leaves as it is and every other letter leads to
# (0,0,0,0), which accepts and which no letter leaves.
echo '1 16 1 3 1 15 0 0' >"$folder/fifteen"
fifteen='pattern: passes the check (states 1, letters 16, records 1)
complement: states 2, edges 32
lasso 1 (- 15,): the pattern takes it, the complement does not
lasso 2 (15,15 15): the complement takes it, the pattern does not
lasso 3 (- 5): the complement takes it, the pattern does not
lasso 4 (15, 15,14): the complement takes it, the pattern does not
lasso 5 (- 15,15): the pattern takes it, the complement does not'
bad_16='letter 16 stands at place 1 of the loop, and the letters are 0 to 15'
expect 'letters above 9 in a tray' 1 "$fifteen
lasso 6 (- 16,): refused (15) in line 6, column 3: $bad_16
tray: lassos 6, the pattern takes 2, the complement takes 3, refused 1" '' \
    "$program" "$folder/fifteen" --tray - < <(printf -- '- 15,\n15,15 15\n- 5\n15, 15,14\n- 15,15\n- 16,\n')
expect 'letters above 9 singly' 1 "$fifteen
lasso 6 (- 16,): refused (15): $bad_16" '' \
    "$program" "$folder/fifteen" - 15, 15,15 15 - 5 15, 15,14 - 15,15 - 16,
nothing='tray: lassos 0, the pattern takes 0, the complement takes 0, refused 0'
expect 'an empty tray' 0 "$passes
$nothing" '' "$program" "$folder/a" --tray /dev/null
expect 'a tray of comments' 0 "$passes
$nothing" '' "$program" "$folder/a" --tray - <<<'# none'
expect 'parts too long' 1 "$passes
lasso 1 ($(zeros 4097) 0): refused (14) in line 1, column 1: the prefix has 4097 letters, and a part has at most 4096
lasso 2 (- $(zeros 65535)): refused (14) in line 2, column 3: the loop has 65535 letters, and a part has at most 4096
lasso 3 ($(zeros 4096) $(zeros 4096)): the pattern takes it, the complement does not
tray: lassos 3, the pattern takes 1, the complement takes 0, refused 2" '' \
    "$program" "$folder/a" --tray - <<<"$(zeros 4097) 0
- $(zeros 65535)
$(zeros 4096) $(zeros 4096)"
expect 'a refused pattern has no answers' 1 'pattern: refused (3) in line 1, column 1: the number of states is 0, and a pattern has 1 to 32' '' \
    "$program" - --tray "$folder/lassos" <<<'0 1 0'
expect 'nor has a refused complement' 1 "pattern: passes the check (states 19, letters 1, records 19)
$many" '' "$program" - --tray "$folder/lassos" <<<"$(rings 1 17 1)"

# A tray says of each lasso what the command line says of it.
mapfile -t each < <(awk 'function part(most, s, n) {
    s = ""
    for (n = int(rand() * most); n > 0; n--) s = s int(rand() * 2.05)
    return s == "" ? "-" : s
} BEGIN { srand(7); for (i = 0; i < 400; i++) print part(9), part(7) }')
printf '%s\n' "${each[@]}" >"$folder/each"
# shellcheck disable=SC2046 # two words a lasso
"$program" "$folder/a" $(cat "$folder/each") >"$folder/single"
"$program" "$folder/a" --tray "$folder/each" | sed 's/ in line [0-9]*, column [0-9]*//' >"$folder/whole"
tried=$((tried + 1))
diff "$folder/single" <(sed '$d' "$folder/whole") >"$folder/diff" || wrong 'a tray beside single lassos' 'they differ' "$(head "$folder/diff")"
for kind in 'the pattern takes it' 'the complement takes it' 'refused (13)' 'refused (15)'; do
    grep -qF "$kind" "$folder/whole" || wrong 'a tray beside single lassos' 'none has this answer' "$kind"
done
# Far more lassos than a call of any program could have on its command line, in a line of its own each.
for _ in $(seq 200); do cat "$folder/each"; done >"$folder/long"
"$program" "$folder/a" --tray "$folder/long" >"$folder/whole"
count=$(wc -l <"$folder/whole")
[ "$count" -eq 80003 ] || wrong 'a long tray' 'lines' "$count"
last=$(tail -n 1 "$folder/whole")
sums=$(awk '/: the pattern takes it, the complement does not$/ { p++ } /: the complement takes it, the pattern does not$/ { c++ } /: refused \(/ { r++ }
    END { printf "tray: lassos %d, the pattern takes %d, the complement takes %d, refused %d", p + c + r, p, c, r }' "$folder/whole")
[ "$last" = "$sums" ] || wrong 'a long tray' "its summary is not '$sums'" "$last"
tried=$((tried + 1))
if limited --version >/dev/null 2>&1; then
    expect 'too little memory for a tray' 2 'pattern: passes the check (states 18, letters 1, records 18)
complement: states 7168, edges 7168' \
        "tubochre-bench: a tray's work words: there is not enough memory: it takes 117440512 times 4 bytes" \
        limited - --tray <(printf -- '- 0\n- %s\n' "$(zeros 4096)") <<<"$(rings 7 10 1)"
fi

# bad LINE COLUMN SENTENCE TEXT: a line that is no lasso, in a text as printf's %b takes it; the pattern is not even read
bad() {
    expect "a tray: $3" 2 '' "tubochre-bench: standard input, line $1, column $2: $3" \
        "$program" "$folder/none" --tray - < <(printf %b "$4")
}
part='a part is digits, numbers divided by commas, or - for none'
allowed='digit, comma, minus sign, blank or newline'
bad 1 1 "'x' is no $allowed" 'x 1'
bad 2 4 "'x' is no $allowed" '- 0\n0 1x\n'
bad 1 2 "'x' is no $allowed" '-x 1'
bad 3 3 "$part" '- 0\n\n- ,1\n'
bad 1 5 "$part" '- 1,,1'
bad 1 3 "$part" '- -1'
bad 1 4 "$part" '- 1-'
bad 1 1 "$part" '--\n'
bad 1 2 "$part" '1-x 0'
bad 1 1 "''' is no $allowed" "'' 0"
bad 1 2 "';' is no $allowed" '0;1'
bad 1 4 "the byte 0x00 is no $allowed" '- 0\x00\n'
bad 2 7 "'#' is no $allowed" '# one\n1 0101#\n'
bad 1 1 'the file begins with a byte order mark, and may not' '\xef\xbb\xbf- 0\n'
bad 1 1 'the file begins with a byte order mark, and may not' '\xef\xbb\xbf# one\n- 0\n'
bad 1 1 "the byte 0xef is no $allowed" '\xef\xbb- 0\n'
bad 2 1 "the byte 0xef is no $allowed" '\n\xef\xbb\xbf- 0\n'
bad 1 1 'the file begins with a byte order mark of UTF-16' '\xff\xfe-\x00 \x000\x00\n\x00'
bad 1 1 'the file begins with a byte order mark of UTF-16' '\xfe\xff\x00-\x00 \x000\x00\n'
bad 1 2 "the byte 0x00 is no $allowed" '-\x00 \x000\x00\n\x00'
bad 2 2 "the byte 0xc2 is no $allowed" '- 0\n-\xc2\xa00\n'
bad 1 5 'a letter is a number from 0 to 65535' '- 3,65536,1'
bad 1 3 'a letter is a number from 0 to 65535' '- 65536,'
bad 2 1 'a letter is a number from 0 to 65535' '- 0\n99999999999999999999, 0'
bad 1 1 'a prefix has no loop beside it' '0'
bad 2 3 'a prefix has no loop beside it' '0 1\n  01  \n1 1'
bad 1 5 'the line goes on behind its loop, and it has one prefix and one loop' '0 1 1\n'
bad 2 6 'the line goes on behind its loop, and it has one prefix and one loop' '\n0 1  # one\n'
bad 1 3 'the part has 65536 letters, and in a tray a part has at most 65535' "- $(zeros 65536)"
bad 2 1 'the part has 70000 letters, and in a tray a part has at most 65535' "- 0\n$(zeros 70000) 1"
long='the part has more than 1048576 bytes, the most that its text may have'
expect 'endless digits in a tray' 2 '' "tubochre-bench: standard input, line 1, column 1: $long" \
    "$program" "$folder/a" --tray - < <(yes 0 | tr -d '\n' 2>/dev/null)
expect 'endless numbers in a tray' 2 '' "tubochre-bench: standard input, line 2, column 4: $long" \
    "$program" "$folder/a" --tray - < <(printf '# one\n - ' && yes 0, | tr -d '\n' 2>/dev/null)
zeros 1048575 >"$folder/zeros"
expect 'a number of as many digits as a part may have' 0 "$passes
lasso 1 (- $(cat "$folder/zeros"),): the pattern takes it, the complement does not
tray: lassos 1, the pattern takes 1, the complement takes 0, refused 0" '' \
    "$program" "$folder/a" --tray - < <(printf -- '- ' && cat "$folder/zeros" && printf ',')
expect 'and one digit more' 2 '' "tubochre-bench: standard input, line 1, column 3: $long" \
    "$program" "$folder/a" --tray - < <(printf -- '- 0' && cat "$folder/zeros" && printf ',')
expect 'endless zero bytes in a tray' 2 '' "tubochre-bench: /dev/zero, line 1, column 1: the byte 0x00 is no $allowed" \
    "$program" "$folder/a" --tray /dev/zero
printf '0 1\n0 1x\n' >"$folder/wrong"
expect 'a tray with a fault, by its name' 2 '' "tubochre-bench: $folder/wrong, line 2, column 4: 'x' is no $allowed" \
    "$program" "$folder/a" --tray "$folder/wrong"

# ---- Merges.

examples=$here/../../examples
merged='5 4 19
1 1
2 6
0 9
1 12
2 17
0 0 2
1 0 3
2 0 4
3 0 5
1 1 0
0 2 7
1 1 8
2 2 0
0 2 10
1 1 11
2 2 0
0 3 13
1 3 14
2 3 15
3 3 16
2 4 0
0 4 18
1 4 19
2 4 0'
expect 'a merge' 0 "$merged" '' "$program" --merge "$examples/clamp.txt" "$examples/spindle.txt"
expect 'a merge, the option last' 0 "$merged" '' "$program" "$examples/clamp.txt" "$examples/spindle.txt" --merge
expect 'a merge, the option between' 0 "$merged" '' "$program" "$examples/clamp.txt" --merge -- "$examples/spindle.txt"
expect 'a first pattern from standard input' 0 "$merged" '' "$program" --merge - "$examples/spindle.txt" <"$examples/clamp.txt"
expect 'a second pattern from standard input' 0 "$merged" '' "$program" --merge "$examples/clamp.txt" - <"$examples/spindle.txt"
expect 'the other way round' 0 '5 4 19
1 1
2 6
1 9
2 14
0 17
0 0 2
1 0 3
2 0 4
3 0 5
2 1 0
0 1 7
1 1 8
2 1 0
0 2 10
1 2 11
2 2 12
3 2 13
1 3 0
0 4 15
1 3 16
2 4 0
0 4 18
1 3 19
2 4 0' '' "$program" --merge "$examples/spindle.txt" "$examples/clamp.txt"
expect 'a pattern with itself' 0 '4 2 8
1 1
2 4
1 5
2 8
0 0 2
1 0 3
0 1 0
0 1 0
0 2 6
1 2 7
0 3 0
0 3 0' '' "$program" --merge "$folder/a" "$folder/a"
expect 'patterns without records' 0 '2 1 0
1 0
2 0' '' "$program" --merge <(echo 1 1 0 1 0) - <<<'1 1 0 2 0'

# What is written can be read: by the program itself, by the listing, and merged again.
"$program" --merge "$examples/clamp.txt" "$examples/spindle.txt" >"$folder/merged"
expect 'lassos by either, and by neither' 0 'pattern: passes the check (states 5, letters 4, records 19)
complement: states 11, edges 44
lasso 1 (123 01): the pattern takes it, the complement does not
lasso 2 (12 0): the pattern takes it, the complement does not
lasso 3 (- 123): the complement takes it, the pattern does not
lasso 4 (123 0): the complement takes it, the pattern does not' '' "$program" - 123 01 12 0 - 123 123 0 <"$folder/merged"
expect 'the first alone' 0 'pattern: passes the check (states 3, letters 4, records 11)
complement: states 4, edges 16
lasso 1 (123 01): the pattern takes it, the complement does not
lasso 2 (12 0): the complement takes it, the pattern does not' '' "$program" "$examples/clamp.txt" 123 01 12 0
expect 'the second alone' 0 'pattern: passes the check (states 2, letters 4, records 8)
complement: states 2, edges 8
lasso 1 (123 01): the complement takes it, the pattern does not
lasso 2 (12 0): the pattern takes it, the complement does not' '' "$program" "$examples/spindle.txt" 123 01 12 0
expect 'a merge into the listing' 0 'states 11 edges 44' '' \
    bash -c "\"\$0\" --merge \"\$1\" \"\$2\" | \"\$3\" | head -n 1" "$program" "$examples/clamp.txt" "$examples/spindle.txt" "$listing"
expect 'its states as the program has them' 0 "$("$listing" <"$folder/merged" | sed -n '2,12p')" '' \
    bash -c "\"\$0\" --states \"\$1\" | sed 1,2d" "$program" "$folder/merged"
expect 'three patterns, the last two merged first' 0 "$("$program" --merge "$folder/merged" "$folder/merged")" '' \
    bash -c "\"\$0\" --merge \"\$2\" \"\$3\" | \"\$0\" --merge \"\$1\" -" \
    "$program" "$examples/clamp.txt" "$examples/spindle.txt" "$folder/merged"

# bare N: n states without records; repeats M: one edge m times
bare() {
    echo "$1 1 0"
    for _ in $(seq "$1"); do echo 1 0; done
}
repeats() {
    local r
    echo "1 1 $1"
    echo 3 1
    for r in $(seq "$1"); do echo "0 0 $((r < $1 ? r + 1 : 0))"; done
}
both='in the first pattern and'
expect '32 states' 0 "$(bare 32)" '' "$program" --merge <(bare 31) <(bare 1)
expect '33 states' 1 '' "merge: refused (20): the number of states is 1 $both 32 in the second, and a pattern has at most 32" \
    "$program" --merge <(bare 1) <(bare 32)
expect '4,096 records' 0 'pattern: passes the check (states 2, letters 1, records 4096)
complement: states 1, edges 1
lasso 1 (- 0): the pattern takes it, the complement does not' '' \
    bash -c "\"\$0\" --merge \"\$1\" \"\$2\" | \"\$0\" - - 0" "$program" <(repeats 4095) <(repeats 1)
expect '4,097 records' 1 '' \
    "merge: refused (21): the number of records is 4096 $both 1 in the second, and a pattern has at most 4096" \
    "$program" --merge <(repeats 4096) <(repeats 1)
expect 'other letters' 1 '' "merge: refused (19): the number of letters is 4 $both 2 in the second, and has to be the same" \
    "$program" --merge "$examples/clamp.txt" "$folder/a"
expect 'other letters before too many states and records' 1 '' \
    "merge: refused (19): the number of letters is 16 $both 1 in the second, and has to be the same" \
    "$program" --merge <(rings 15 16 16) <(bare 32)
expect 'too many states before too many records' 1 '' \
    "merge: refused (20): the number of states is 32 $both 1 in the second, and a pattern has at most 32" \
    "$program" --merge <(bare 32) <(repeats 4096)

# merge_refused FIRST SECOND ERRORS: two texts, the second from standard input
merge_refused() {
    printf '%s' "$1" >"$folder/first"
    expect "$3" 1 '' "$3" "$program" --merge "$folder/first" - <<<"$2"
}
first="first pattern ($folder/first): refused"
second='second pattern (standard input): refused'
merge_refused $'2 2\n4\t1' "$a" "$first (1) in line 2, column 2: a tab stands here, $divide"
merge_refused "$a" $'2 2\n4\t1' "$second (1) in line 2, column 2: a tab stands here, $divide"
merge_refused '1 1' "$a" "$first (2): the number of words is 2, and a table has at least 3"
merge_refused "$a" '' "$second (2): the number of words is 0, and a table has at least 3"
merge_refused $'33\n1 0' "$a" "$first (3) in line 1, column 1: the number of states is 33, and a pattern has 1 to 32"
merge_refused "$a" $'\n33 1 0' "$second (3) in line 2, column 1: the number of states is 33, and a pattern has 1 to 32"
merge_refused '1 17 0' "$a" "$first (4) in line 1, column 3: the number of letters is 17, and a table has 1 to 16"
merge_refused "$a" '1 1 4097' "$second (5) in line 1, column 5: the number of records is 4097, and a pattern has at most 4096"
merge_refused "$a 0" "$a" "$first (6): the number of words is 20, $length 3 + 2 * 2 + 3 * 4 = 19"
merge_refused "$a" '2 1 0 3 0 4 0' "$second (7) in line 1, column 11: state 1 has flags 4, and flags are 0 to 3"
merge_refused $'2 1 1\n0 1\n0 0\n0 7 0' "$a" "$first (8) in line 4, column 3: record 1 has target 7, and the states are 0 to 1"
merge_refused "$a" '1 1 1 0 0 0 0 0' "$second (9): record 1 is in no chain: no head and no next names it"
merge_refused $'2 1 2\n1 0\n2 1\n0 0 2\n0 1 0' "$a" "$first (10) in line 5, column 3: $fork1"
merge_refused "$a" '2 1 2 1 0 2 1 0 0 2 0 1 0' "$second (10) in line 1, column 23: $fork1"
# Of two refused patterns the first is named, though the second's number is smaller; but a text comes before all tables.
merge_refused '2 1 2 1 0 2 1 0 0 2 0 1 0' '1' "$first (10) in line 1, column 23: $fork1"
merge_refused '1' '2 1 2 1 0 2 1 0 0 2 0 1 0' "$first (2): the number of words is 1, and a table has at least 3"
merge_refused '1' 'x' "$second (1) in line 1, column 1: 'x' is no digit, space or newline"
merge_refused 'x' 'y' "$first (1) in line 1, column 1: 'x' is no digit, space or newline"
echo 1 >"$folder/"$'\x1b[31m'
expect 'a name that could steer a terminal' 1 '' \
    "second pattern ($folder/\\x1b[31m): refused (2): the number of words is 1, and a table has at least 3" \
    "$program" --merge "$folder/a" "$folder/"$'\x1b[31m'

# ---- The command line.

# misuse SENTENCE ARGUMENTS...
misuse() {
    local sentence=$1
    shift
    expect "$sentence" 2 '' "tubochre-bench: $sentence
usage: tubochre-bench [OPTION]... PATTERN [PREFIX LOOP]...
       tubochre-bench [OPTION]... PATTERN --tray FILE
       tubochre-bench --merge FIRST SECOND
tubochre-bench --help says more" "$program" "$@"
}
misuse 'no pattern is named'
misuse 'no pattern is named' --
misuse 'no pattern is named' --states
misuse 'a prefix has no loop beside it: 0' "$folder/a" 0
misuse 'a prefix has no loop beside it: 1' "$folder/a" 0 1 1
misuse "a prefix has no loop beside it: ''" "$folder/a" ''
misuse 'a prefix has no loop beside it: 0' "$folder/a" 0 --
misuse 'unknown option: --stats' --stats "$folder/a"
misuse 'unknown option: -x' "$folder/a" -x 0
misuse 'unknown option: -help' -help
misuse 'unknown option: -1' "$folder/a" -1 0
misuse 'unknown option: -h=1' -h=1
misuse 'unknown option: --hel' --hel
misuse 'unknown option: --a\x0ab\x1b[31m\x7f' $'--a\nb\x1b[31m\x7f'
misuse 'unknown option: --none' --help --none
misuse 'this option takes no value: --states=1' --states=1 "$folder/a"
misuse 'this option takes no value: --help=1' --help=1
misuse 'a value is missing behind this option: --dot' "$folder/a" --dot
misuse 'this is no graph, which is pattern or complement: svg' --dot svg "$folder/a"
misuse "this is no graph, which is pattern or complement: ''" --dot= "$folder/a"
misuse 'this is no graph, which is pattern or complement: --' --dot -- "$folder/a"
misuse '--dot writes one graph, and this is a second: complement' --dot pattern --dot complement "$folder/a"
misuse '--dot writes a graph alone, without lassos and states' --dot pattern "$folder/a" 0 1
misuse '--dot writes a graph alone, without lassos and states' --dot pattern --states "$folder/a"
misuse '--dot writes a graph alone, without lassos and states' --dot pattern --tray "$folder/lassos" "$folder/a"
misuse 'a value is missing behind this option: --tray' "$folder/a" --tray
misuse '--tray reads one file, and this is a second: y' --tray x --tray y "$folder/a"
misuse '--tray takes all lassos from its file, and this is another: 0' --tray "$folder/lassos" "$folder/a" 0 1
misuse '--tray takes all lassos from its file, and this is another: 0' "$folder/a" 0 --tray "$folder/lassos"
misuse 'pattern and tray cannot both be read from standard input' --tray - -
misuse 'no pattern is named' --tray "$folder/lassos"
misuse 'no pattern is named' --merge
misuse "--merge takes two patterns, and this is the only one: $folder/a" --merge "$folder/a"
misuse '--merge takes two patterns, and this is a third: 0' --merge "$folder/a" "$folder/a" 0 1
misuse 'two patterns cannot both be read from standard input' --merge - -
alone='--merge writes a pattern alone, without states, graphs and lassos'
misuse "$alone" --merge --states "$folder/a" "$folder/a"
misuse "$alone" --merge --dot pattern "$folder/a" "$folder/a"
misuse "$alone" --merge --tray "$folder/lassos" "$folder/a" "$folder/a"
misuse 'this option takes no value: --merge=a' --merge=a "$folder/a"

# trouble SENTENCE ARGUMENTS...
trouble() {
    local sentence=$1
    shift
    expect "$sentence" 2 '' "tubochre-bench: $sentence" "$program" "$@"
}
trouble "$folder/none: No such file or directory" "$folder/none"
trouble "$folder: Is a directory" "$folder"
trouble "$folder/a/: Not a directory" "$folder/a/"
trouble "'': No such file or directory" ''
trouble "$folder/none: No such file or directory" --tray "$folder/none" "$folder/a"
trouble "$folder: Is a directory" --tray "$folder" "$folder/a"
trouble "'': No such file or directory" --tray= "$folder/a"
trouble "$folder/none: No such file or directory" --merge "$folder/none" "$folder/a"
trouble "$folder/none: No such file or directory" --merge "$folder/a" "$folder/none"
trouble "$folder: Is a directory" --merge "$folder/a" "$folder"
trouble "$folder/\\x1b[31m\\x0a: No such file or directory" "$folder/"$'\x1b[31m\n'
trouble "$folder/ü€\\xc2\\x9b31m\\xff\\xe2\\x82x: No such file or directory" "$folder/"$'\xc3\xbc\xe2\x82\xac\xc2\x9b31m\xff\xe2\x82x'
touch "$folder/closed"
chmod 000 "$folder/closed"
[ -r "$folder/closed" ] || trouble "$folder/closed: Permission denied" "$folder/closed"
expect 'standard input is a directory' 2 '' 'tubochre-bench: standard input: Is a directory' "$program" - </
expect 'standard input is closed' 2 '' 'tubochre-bench: standard input: Bad file descriptor' "$program" - <&-
expect 'a tray from a closed standard input' 2 '' 'tubochre-bench: standard input: Bad file descriptor' \
    "$program" "$folder/a" --tray - <&-
trouble "lasso 1 (0 1x1), byte 2 of its loop: $part" "$folder/a" 0 1x1
trouble "lasso 2 (a 1), byte 1 of its prefix: $part" "$folder/a" 0 1 a 1
trouble "lasso 1 (0 1F), byte 2 of its loop: $part" "$folder/a" 0 1F
trouble "lasso 1 (0 1,,1), byte 3 of its loop: $part" "$folder/a" 0 1,,1
trouble "lasso 1 (,1 1), byte 1 of its prefix: $part" "$folder/a" ,1 1
trouble "lasso 1 (-1 1), byte 1 of its prefix: $part" -- "$folder/a" -1 1
trouble "lasso 1 (0 1,+1), byte 3 of its loop: $part" "$folder/a" 0 1,+1
trouble "lasso 1 (0 1\\x0a\\x1b1), byte 2 of its loop: $part" "$folder/a" 0 $'1\n\x1b1'
trouble "lasso 1 ($(zeros 5000)x 1), byte 5001 of its prefix: $part" "$folder/a" "$(zeros 5000)x" 1
trouble "lasso 1 (0 3,65536,1), byte 3 of its loop: a letter is a number from 0 to 65535" "$folder/a" 0 3,65536,1
trouble "lasso 1 (0 99999999999999999999,), byte 1 of its loop: a letter is a number from 0 to 65535" "$folder/a" 0 99999999999999999999,

expect '--version' 0 "tubochre-bench $(sed -n 's/^.define TUBOCHRE_VERSION_[A-Z]* //p' "$here/../../include/tubochre.h" | paste -sd. -)" \
    '' "$program" --version
help="usage: tubochre-bench [OPTION]... PATTERN [PREFIX LOOP]...
       tubochre-bench [OPTION]... PATTERN --tray FILE
       tubochre-bench --merge FIRST SECOND

Checks a pattern, builds its complement, and says of each lasso which of the two takes it.

PATTERN is a file that holds a pattern's words as decimal numbers divided by spaces and newlines,
or - for standard input. So are FIRST and SECOND.

Each PREFIX and LOOP is a lasso: the word that reads PREFIX once and then LOOP for ever. Either is
written as digits, one for each letter (0110), or as numbers divided by commas (10,3,15; a single
letter above 9 is written with a comma behind it: 12,). The empty prefix is - or ''.

Options:
  --states         also prints each state of the complement: number, N, C, S, B, flags
  --dot GRAPH      writes the graph of the pattern or of the complement in DOT, and nothing else;
                   GRAPH is pattern or complement
  --tray FILE      takes the lassos from a file, or - for standard input, and counts the answers; a line
                   has a PREFIX, blanks, and a LOOP, and the empty prefix is -; blank lines and lines that
                   begin with # are skipped
  --merge          makes FIRST and SECOND into one pattern, which takes a lasso if at least one of them does,
                   and writes its words, and nothing else
  -h, --help       prints this, and ends
  --version        prints the version, and ends
  --               ends the options: all words behind it are PATTERN, PREFIX and LOOP, or FIRST and SECOND

Exit status: 0 all was answered; 1 a pattern, its complement, a merge or a lasso was refused;
2 wrong use, a lasso that cannot be read, or a file, memory or output that failed."
expect '--help' 0 "$help" '' "$program" --help
expect '-h' 0 "$help" '' "$program" -h
expect '--help before all else' 0 "$help" '' "$program" "$folder/none" --help 0

# ---- Outputs that cannot be written.

for arguments in --help --version "$folder/a" "--states $folder/a" "--dot pattern $folder/a" "--dot complement $folder/a" - \
    "--tray $folder/lassos $folder/a" "--merge $folder/a $folder/a"; do
    # shellcheck disable=SC2086 # words
    expect "a full disk: $arguments" 2 '' 'tubochre-bench: standard output: No space left on device' \
        sh -c "exec \"\$0\" \"\$@\" >/dev/full" "$program" $arguments <<<'x'
done
for arguments in --help --version "$folder/a" "--states $folder/a" "--dot pattern $folder/a" "--dot complement $folder/a" \
    "--tray $folder/lassos $folder/a" "--merge $folder/a $folder/a"; do
    # shellcheck disable=SC2086 # words
    expect "a closed output: $arguments" 2 '' 'tubochre-bench: standard output: Bad file descriptor' \
        sh -c "exec \"\$0\" \"\$@\" >&-" "$program" $arguments
done
echo '2 1 2 1 0 2 1 0 0 2 0 1 0' >"$folder/fork"
expect 'a closed output, and nothing for it' 1 '' "pattern: refused (10) in line 1, column 23: $fork1" \
    sh -c "exec \"\$0\" --dot complement \"\$1\" >&-" "$program" "$folder/fork"
# A pipe whose reader has ended; the signal of it ends the program, unless it is ignored.
expect 'a reader that is gone' 2 '' 'tubochre-bench: standard output: Broken pipe' \
    bash -c "trap '' PIPE; exec 3> >(:); wait \$!; exec \"\$0\" \"\$@\" >&3" "$program" --states "$folder/a"
# Why there is no graph is told on standard error.
for errors in '/dev/full' '&-'; do
    expect "a refusal that cannot be told: $errors" 2 '' '' \
        sh -c "exec \"\$0\" --dot complement \"\$1\" 2>$errors" "$program" "$folder/fork"
    expect "a refused merge that cannot be told: $errors" 2 '' '' \
        sh -c "exec \"\$0\" --merge \"\$1\" \"\$1\" 2>$errors" "$program" "$folder/fork"
    expect "nothing to be told: $errors" 0 "$passes" '' sh -c "exec \"\$0\" \"\$1\" 2>$errors" "$program" "$folder/a"
    expect "wrong use: $errors" 2 '' '' sh -c "exec \"\$0\" 2>$errors" "$program"
done

# ---- A terminal shows that a long build goes on; nothing else does.

rings 7 13 2 >"$folder/rings"
expect 'no progress off a terminal' 1 'pattern: passes the check (states 21, letters 2, records 42)
complement: refused (12): it has more than 65535 edges, the most that a table has' '' "$program" "$folder/rings"
if command -v script >/dev/null; then
    # It is shown after half a second. Where all took less than one and a half, the machine may be too fast for anything to be seen.
    start=$(date +%s%N)
    script -qec "'$program' '$folder/rings'" /dev/null >"$folder/out" </dev/null
    if [ $(($(date +%s%N) - start)) -gt 1500000000 ]; then
        grep -q '^tubochre-bench: building the complement \.' "$folder/out" ||
            wrong 'progress on a terminal' 'it showed' "$(cat "$folder/out")"
    fi
    tried=$((tried + 1))
fi
end_trials tubochre-bench
