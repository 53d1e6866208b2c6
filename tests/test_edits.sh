#!/usr/bin/env bash
# Tries the two tools for must-fail edits on a small repository of its own: which logs show something, and which edits fit their files.
set -euo pipefail
cd "$(dirname "$0")/.."
home=$(mktemp -d)
trap 'rm -rf "$home"' EXIT
mkdir -p "$home/tools" "$home/docs" "$home/crates/one/src" "$home/crates/one/specs" "$home/crates/one/must-fail"
cp tools/edits.sh tools/judge_edits.sh "$home/tools/"
failed=0

wrong() {
    echo "FAILED: $*"
    failed=1
}

# judged WANTED TOLD: whether an edit of which rt tells this shows something
judged() {
    local got=something
    {
        echo 'rt: one: begins with what a check kept'
        echo "rt: must-fail one/double_y.edit: refused, as it must be: ./proofs/Last.antt:9:9: error: \`last\`: expected type \`A\`, but this has type \`B\`"
        echo "rt: must-fail one/double_x.edit: $2"
    } >"$home/log"
    "$home/tools/judge_edits.sh" "$home/log" >/dev/null || got=nothing
    [ "$got" = "$1" ] || wrong "what rt tells shows $got, not $1: $2"
}

# shellcheck disable=SC2016 # the checker's own backquotes
try_logs() {
    local refused='refused, as it must be:'
    judged something "$refused"' ./proofs/double/Answers.antt:3:5: error: `returns`: expected type `a ≡ 1`, but this has type `a ≡ 2`'
    judged something "$refused"' ./proofs/double/Answers.antt:3:5: error: `returns`: computed as far as they go, the two types differ only where one has `1` (expected) and the other has `2` (found)'
    judged something "$refused"' ./proofs/double/Answers.antt:3:5: error: `returns`: as printed, the two sides first differ where one has `1` (expected)'
    judged something "$refused"' ./proofs/double/Answers.antt:3:5: error: `returns`: computed as a goal is, one side reads `a`'
    judged something "$refused"' ./proofs/double/Answers.antt:3:5: error: `returns`: `a term that is longer than what rt prints of an err'
    judged something "$refused"' ./proofs/Laws.antt:3:5: error: `law`: `omega`: the goal does not follow from what it read. All of that holds, and the goal fails, at `a` = 1'
    judged something "$refused"' ./proofs/Laws.antt:3:5: error: `law`: give a proof of that as the last argument, `rw L t` (`rw L ?` shows it as a hole'"'"'s goal)'
    judged something "$refused"' ./proofs/Laws.antt:3:5: error: `law`: list the missing equation with its arguments, or rewrite by `rw` or `simp`'
    judged something "$refused"' note: src/lib.rt:3:1: it is not proved that what the function ensures holds when it returns (`returns`)'
    judged something "$refused"' note: src/lib.rt:3:1: it is not proved that what `half` requires holds at this call (`half-requires`)'
    judged nothing 'NOT REFUSED: the edited crate proves'
    judged nothing 'BAD EDIT: an '"'"'old:'"'"' text is in src/lib.rt 0 times, and not once'
    judged nothing 'refused, as it must be (only because a proof file names what the edit took away, so this says little of the contract: change a value and keep the names): ./proofs/double/Answers.antt:3:5: error: `returns-then-x-lt3`: `goal.returns-then-x-lt3`: module `Goals` has no `returns-then-x-lt3`'
    judged nothing "$refused"' ./specs/Double.antt:3:5: error: `double`: `false` is not in scope'
    judged nothing "$refused"' ./specs/Double.antt:3:5: error: `double`: expected type `ℕ`, but this has type `Bool`'
    judged nothing "$refused"' ./proofs/Laws.antt:3:5: error: `law`: `rw`: no occurrence of the path'"'"'s left endpoint in the goal'
    judged nothing "$refused"' ./proofs/Laws.antt:3:5: error: `law`: list the missing equation; `cc` met a bound of its own before the equations had joined `a`'
    judged nothing "$refused"' ./proofs/double/Answers.antt:3:5: error: `loop-i-smaller`: expected type `a < b`, but this has type `c < b`'
    judged nothing "$refused"' ./proofs/double/Answers.antt:3:5: error: `overflow_add-x`: as printed, the two types differ only where one has `a` (expected)'
    judged nothing "$refused"' ./proofs/double/Answers.antt:3:5: error: `x_fits`: expected type `Fits w32 (a + b)`, but this has type `Fits w32 a`'
    judged nothing "$refused"' ./proofs/double/Answers.antt:3:5: error: `loop-i-init`: expected type `a < 2 ^ 32`, but this has type `b < 2 ^ 32`'
    judged nothing "$refused"' ./proofs/double/Answers.antt:3:5: error: `returns`: something that no log had before'
    echo 'rt: must-fail one/double_y.edit: refused' >"$home/log"
    if "$home/tools/judge_edits.sh" "$home/log" >/dev/null; then wrong 'an edit that was not tried shows something'; fi
}

# fits WANTED NAME LINE...: whether --check is content with an edit of these lines, or what it says of it
fits() {
    local wanted=$1 name=$2 got
    shift 2
    rm -f "$home"/crates/one/must-fail/*
    printf '%s\n' "$@" >"$home/crates/one/must-fail/$name.edit"
    "$home/tools/edits.sh"
    if got=$("$home/tools/edits.sh" --check); then got=content; fi
    case $got in *"$wanted"*) ;; *) wrong "of $name --check says: $got" ;; esac
}

try_edits() {
    local breaks='breaks: Twice two is four.' file='file: src/lib.rt'
    printf 'fn double(x: u32) -> u32 {\n    x + x\n}\n' >"$home/crates/one/src/lib.rt"
    printf 'unfoldable pub takes? : ℕ → Bool\n' >"$home/crates/one/specs/Takes.antt"
    echo 'one:' >"$home/crates.txt"
    printf '<!-- the edits: written by tools/edits.sh -->\n<!-- end of the edits -->\n' >"$home/docs/REVIEW.md"
    fits content double_drops_one "$breaks" "$file" 'old:     x + x' 'new:     x'
    fits content takes_nothing "$breaks" "$file" 'old: x + x' 'new: x'
    fits 'is not in src/lib.rt' double_drops_one "$breaks" "$file" 'old: y + y' 'new: y'
    fits 'more than once' double_drops_one "$breaks" "$file" 'old: x' 'new: y'
    fits 'its first line' double_drops_one "$file" 'old: x + x' 'new: x'
    fits 'no whole sentence' double_drops_one 'breaks: twice two' "$file" 'old: x + x' 'new: x'
    fits 'its name does not begin' halves "$breaks" "$file" 'old: x + x' 'new: x'
    fits 'its name does not begin' double "$breaks" "$file" 'old: x + x' 'new: x'
    echo 'See one/double_is_gone.' >>"$home/docs/REVIEW.md"
    fits 'no such edit' double_drops_one "$breaks" "$file" 'old: x + x' 'new: x'
    : >"$home/docs/REVIEW.md"
    fits 'not both marks' double_drops_one "$breaks" "$file" 'old: x + x' 'new: x'
}

echo 'one:' >"$home/crates.txt"
: >"$home/crates/one/must-fail/double_x.edit"
try_logs
try_edits
[ "$failed" -eq 0 ] && echo 'ok: edits that show nothing are found, and those that do not fit'
exit "$failed"
