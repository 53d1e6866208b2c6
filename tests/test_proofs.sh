#!/usr/bin/env bash
# A function's proof names the places of the code that it speaks of, and never counts steps back to them (CONTRIBUTING.md, "To change code").
set -euo pipefail
cd "$(dirname "$0")/.."
if find crates -path '*/proofs/*/*.antt' ! -path '*/out/*' -exec grep -nF '.before' {} +; then
    echo 'FAILED: a proof counts steps back: each step has a name of its own behind `c`'
    exit 1
fi
echo 'ok: every proof of a function finds its places by name'
