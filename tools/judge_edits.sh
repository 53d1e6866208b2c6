#!/bin/sh
# Says which must-fail edits show nothing, by what rt printed of them:
#
#     tools/judge_edits.sh LOG      LOG has what `rt ci` or `rt must-fail` printed
#
# An edit shows something only if the checker refuses it for a false fact. rt counts every refusal: also one for a name that is not in
# scope, for a `rw` that finds nothing to rewrite, or for a measure that no longer falls. So the first error of each edit, which rt
# prints behind its name, is judged here, by a list of what IS about a fact; a kind of error that is not on the list is never passed
# over. rt cuts a line off behind some 200 characters, so a kind is known by how it begins. An edit is good if its first error
#
#   - stands in proofs/, or says of a function that it is not proved to give what it ensures, what it calls asks, or what a type says of
#     its values: an error in src/ or specs/ means that the edited line itself makes no sense;
#   - names a goal of its own, and does not miss one that a proof file has a name for;
#   - is in no goal of the form LOOP-smaller, which asks that a loop ends;
#   - does not ask that a number fits its word (a goal of the form overflow_…) or is below a power of 2, as a set of so many states is:
#     the edited line mostly keeps that, and only the proof no longer fits;
#   - is of one of these kinds:
#       two types, or the two sides of an equation, differ (what is to be proved, and what the proof proves);
#       an equation that had to wait for an argument does not hold (rt prints a long error's beginning: of such a one its first term);
#       omega, by itself or for search: the goal fails at numbers that it names;
#       search or grind, in an answer: it has no proof of the goal, which it proves without the edit;
#       rw or simp without a last argument: two ends are left, and they differ;
#       cc: the two sides are not equal by the equations at hand (not: it met a bound of its own before it knew);
#       no proof is found of what a function ensures when it returns, of what a call requires, of what a value's ghost fields say,
#       or that a loop's invariant lasts.
#
# A further kind is added only after reading a log that has it.
set -eu
cd "$(dirname "$0")/.."
export LC_ALL=C
log=$1

# judge EDIT: nothing if the first error is about a fact, else why it is not, and the error
judge() {
    awk -v edit="$1" '
        index($0, "rt: must-fail " edit ".edit: ") == 1 { found = 1; told = substr($0, length("rt: must-fail " edit ".edit: ") + 1) }
        function fault() {
            if (told !~ /^refused, as it must be/) return "it is not refused"
            if (told !~ /^refused, as it must be: /) return "a proof file has a name for what the edit took away"
            if (text ~ /^note: src\/[a-z_]+\.rt:[0-9:]+ it is not proved that what the function ensures holds when it returns/) return ""
            if (text ~ /^note: src\/[a-z_]+\.rt:[0-9:]+ it is not proved that what `[a-z_0-9:]+` requires holds at this call/) return ""
            if (text ~ /^note: src\/[a-z_]+\.rt:[0-9:]+ `search` found no proof \(`invariant_of-/) return ""
            if (text ~ /^note: src\/[a-z_]+\.rt:[0-9:]+ it is not proved that the invariant of the loop holds/) return ""
            if (place !~ /^\.\/proofs\//) return "its first error is not in a proof"
            if (name ~ /-smaller(-[0-9]+)?$/) return "its first error is about the end of a loop"
            if (name ~ /^overflow_/ || text ~ /expected type `[^`]*(Fits |(<|≤|◌<◌|◌≤◌) [^`]*2 \^ )/) return "its first error is about the width of a number"
            if (text ~ /^(as printed|computed as far as they go), the two (types|sides) /) return ""
            if (text ~ /^computed as a goal is, one side reads /) return ""
            if (text ~ /^expected type `/) return ""
            if (text ~ /^`[^`]*` .*does not hold \(this comparison/ || text ~ /^`[^`]*$/) return ""
            if (text ~ /^(`search`: no proof of `.* )?`omega`: the goal does not follow from what it read/) return ""
            if (text ~ /^`search`: no proof of `/) return ""
            if (text ~ /^`grind` (found no proof|stopped at its own limit)/) return ""
            if (text ~ /^give a proof of that as the last argument/) return ""
            if (text ~ /^list the missing equation/ && text !~ /bound of its own/) return ""
            return "its first error is of a kind that is not about a fact"
        }
        END {
            if (!found) { print "it was not tried"; exit }
            text = told; sub(/^refused, as it must be: /, "", text)
            place = text; sub(/: error: .*/, "", place)
            sub(/^[^ ]*: error: /, "", text)
            name = text
            if (name ~ /^`[^`]*`: /) { sub(/`: .*/, "", name); sub(/^`/, "", name); sub(/^`[^`]*`: /, "", text) } else name = ""
            why = fault()
            if (why != "") print why ": " told
        }' "$log"
}

tried=0 bad=0
for edit in crates/*/must-fail/*.edit; do
    crate=${edit#crates/}
    one=${crate%%/*}/$(basename "$edit" .edit)
    tried=$((tried + 1))
    why=$(judge "$one")
    [ -z "$why" ] || { bad=$((bad + 1)); echo "edits: $one shows nothing: $why"; }
done
if [ "$bad" -ne 0 ]; then
    echo "edits: $bad of $tried show nothing"
    exit 1
fi
echo "edits: all $tried are refused for a false fact"
