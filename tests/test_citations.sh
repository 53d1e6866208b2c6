#!/usr/bin/env bash
# Every citation of the rules leads to a section or a sentence of docs/RULES.md, and none leads outside the repository.
set -euo pipefail
cd "$(dirname "$0")/.."
places=(README.md CONTRIBUTING.md CHANGELOG.md docs include programs tests bench tools crates)
failed=0

wrong() {
    echo "FAILED: $*"
    failed=1
}

# some LIST WHAT: a list of which nothing was found is a fault of this test
some() {
    [ -n "$1" ] || wrong "$2: none is found"
}

# Sections, cited by their titles: the page, a comma, then one quoted title or several. A citation may go on in the next line of a
# comment, so lines are joined first.
titles=$(find "${places[@]}" -type d -name out -prune -o -type f ! -name test_citations.sh -print0 | xargs -0 cat | sed 's,^ *\(--\|//\|[*]\|#\) ,,' | tr '\n' ' ' |
    grep -oE 'docs/RULES\.md,? *"[^"]+"( and "[^"]+")*' | grep -oE '"[^"]+"' | tr -d '"' | sort -u)
some "$titles" 'titles of sections'
while IFS= read -r title; do
    grep -qxF "## $title" docs/RULES.md || wrong "docs/RULES.md has no section \"$title\""
done <<<"$titles"

# Sentences, quoted in a table of docs/THEORY.md.
sentences=$(sed -n '/^## The rules$/,$s/^| "\([^"]*\)".*/\1/p' docs/THEORY.md | sed 's/^… //; s/ …$//')
some "$sentences" 'sentences in docs/THEORY.md'
while IFS= read -r sentence; do
    grep -qF -- "$sentence" docs/RULES.md || wrong "docs/RULES.md does not say: $sentence"
done <<<"$sentences"

# Papers and pages that are not here.
if grep -rnE '[Dd]ocument 0[0-9]+' "${places[@]}" --exclude=test_citations.sh --exclude-dir=out; then
    wrong 'a document is cited that is not in the repository'
fi
[ "$failed" -eq 0 ] && echo 'ok: every citation of the rules leads to its place'
exit "$failed"
