#!/bin/sh
# The must-fail edits as a table in docs/REVIEW.md: which sentence each of them makes false.
#
#     tools/edits.sh             writes the table
#     tools/edits.sh --check     says what is wrong with an edit or with docs/REVIEW.md, and fails if anything is
#
# An edit's first line is `breaks: SENTENCE`. Its name begins with the name of the function or definition, of that crate's src/ or
# specs/, which the sentence is about, in snake case, and goes on with what is wrong. (`paper_N_` begins the name of one that breaks
# the paper's line N, `build_` that of a wrong build as a whole, and an edit of a function that went into another keeps its name:
# docs/DESIGN-PASS.md, "What went".) Each `old:` text stands exactly once in its file: an edit that
# has gone stale is found here in a second, and by rt after minutes.
set -eu
cd "$(dirname "$0")/.."
export LC_ALL=C
page=docs/REVIEW.md

# edits MODE: reads every edit. MODE table prints the rows; MODE faults what is wrong with them.
edits() {
    sed -n 's/^\([a-z_]*\)[ a-z]*:.*/\1/p' crates.txt | while read -r crate; do
        for edit in "crates/$crate/must-fail"/*.edit; do
            [ ! -f "$edit" ] || echo "$crate $(basename "$edit" .edit)"
        done
    done | awk -v mode="$1" '
        function slurp(path,   line, all) {
            all = ""
            while ((getline line < path) > 0) all = all line "\n"
            close(path)
            return all
        }
        function fault(text) { if (mode == "faults") print "edits: " crate "/" label ": " text }

        # the names, in snake_case, of the functions, types and definitions of a crate
        function read_names(   list, path, line, n, i, words) {
            known[crate] = 1
            list = "find crates/" crate "/src crates/" crate "/specs -type f 2>/dev/null"
            while ((list | getline path) > 0) {
                while ((getline line < path) > 0) {
                    if (path ~ /\.rt$/) {
                        if (line ~ /^ *\/\// || !match(line, /(fn|struct|enum|const) [A-Za-z0-9_]+/)) continue
                        line = substr(line, RSTART, RLENGTH)
                        sub(/^[a-z]* /, "", line)
                    } else {
                        if (line !~ /^[^ -]/ || line ~ /^(pub )?(use|mod|module) /) continue
                        n = split(line, words, " ")
                        for (i = 1; i < n && words[i] ~ /^(pub|unfoldable|abbrev|record|data)$/;) i++
                        line = words[i]
                    }
                    gsub(/[?]|'"'"'/, "", line)
                    names[crate, tolower(line)] = 1
                    gsub(/[A-Z]/, "_&", line)
                    sub(/^_/, "", line)
                    names[crate, tolower(line)] = 1
                }
                close(path)
            }
            close(list)
        }

        # whether some proper beginning of the label, up to a low line, is such a name
        function well_named(   i) {
            if (label ~ /^(paper_[0-9]+|build|fill8|equals|move_up|goes_on|in_numbers)_./) return 1
            for (i = 2; i < length(label); i++)
                if (substr(label, i, 1) == "_" && (crate, tolower(substr(label, 1, i - 1))) in names) return 1
            return 0
        }

        # one replacement, as rt makes it
        function replace(   at, rest) {
            if (!(file in text)) text[file] = slurp("crates/" crate "/" file)
            at = old == "" ? 0 : index(text[file], old)
            if (!at) { fault("its `old:` text is not in " file ": " old); return }
            rest = substr(text[file], at + length(old))
            if (index(rest, old)) { fault("its `old:` text is in " file " more than once: " old); return }
            if (old == new) fault("its `old:` and `new:` texts are the same")
            text[file] = substr(text[file], 1, at - 1) new rest
        }

        {
            crate = $1; label = $2
            if (!(crate in known)) read_names()
            path = "crates/" crate "/must-fail/" label ".edit"
            sentence = ""; file = ""; old = ""; pairs = 0; number = 0
            split("", text)
            while ((getline line < path) > 0) {
                number++
                if (number == 1 && line ~ /^breaks: ./) sentence = substr(line, 9)
                else if (line ~ /^file: /) file = substr(line, 7)
                else if (line ~ /^old: /) old = substr(line, 6)
                else if (line ~ /^new:/) { new = line; sub(/^new: ?/, "", new); replace(); pairs++; old = "" }
            }
            close(path)
            if (sentence == "") fault("its first line is not `breaks: SENTENCE`")
            else if (sentence !~ /^[A-Z0-9`]/ || sentence !~ /([.]|…)$/) fault("what it breaks is no whole sentence")
            if (!pairs) fault("it has no `old:` and `new:` lines")
            if (!well_named()) fault("its name does not begin with that of a function or definition of src/ or specs/")
            gsub(/\|/, "\\|", sentence)
            if (mode == "table") print "| " crate " | " label " | " sentence " |"
        }'
}

table() {
    echo '| crate | edit | breaks |'
    echo '|---|---|---|'
    edits table
}

# The page with the table in it, between its two marks.
written() {
    table | awk '
        NR == FNR { rows = rows $0 "\n"; next }
        /^<!-- end of the edits -->$/ { inside = 0 }
        !inside { print }
        /^<!-- the edits: written by tools\/edits.sh -->$/ { inside = 1; printf "%s", rows }
    ' - "$page"
}

# Edits that the page names and that are not there: CRATE/LABEL, with no further part of a path behind it.
unknown() {
    sed -n 's/^\([a-z_]*\)[ a-z]*:.*/\1/p' crates.txt | awk '
        NR == FNR { crates[$1] = 1; next }
        {
            while (match($0, /[a-z_]+\/[A-Za-z0-9_]+[.\/]?[A-Za-z]?/)) {
                word = substr($0, RSTART, RLENGTH)
                $0 = substr($0, RSTART + RLENGTH)
                if (word ~ /[.\/][A-Za-z]$/ || word ~ /\/$/) continue
                sub(/[.].*$/, "", word)
                split(word, parts, "/")
                if (parts[1] in crates) print parts[1], parts[2]
            }
        }' - "$page" | sort -u | while read -r crate label; do
        [ -f "crates/$crate/must-fail/$label.edit" ] || echo "edits: $page names $crate/$label, and there is no such edit"
    done
}

new=$(mktemp)
trap 'rm -f "$new"' EXIT
written >"$new"
case ${1:-} in
'')
    cat "$new" >"$page"
    ;;
--check)
    faults=$(
        edits faults
        unknown
        [ "$(grep -c '^<!-- .*the edits' "$page")" = 2 ] || echo "edits: $page has not both marks of the table"
        cmp -s "$new" "$page" || echo "edits: the table of $page is stale: run tools/edits.sh"
    )
    [ -z "$faults" ] || { printf '%s\n' "$faults"; exit 1; }
    ;;
*)
    echo 'usage: tools/edits.sh [--check]' >&2
    exit 2
    ;;
esac
