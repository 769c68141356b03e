#!/usr/bin/env bash
# Fits the tree at commit fbff2134f5f043bda1b768f30bafe07f11591a47 alone, before the design pass: check that out first (docs/PORT.md).
# Takes up again what docs/PORT.md calls the unfinished work: changes the landed crates as it had changed them, and makes its crates
# code again. Run it in a clean work tree, once; then check, and commit.
set -euo pipefail
cd "$(dirname "$0")/.."
git apply --index docs/unfinished/landed-crates.patch
git ls-files crates | grep -E '\.(rt|antt)\.txt$' | while read -r file; do
    git mv "$file" "${file%.txt}"
done
git rm -q docs/unfinished/landed-crates.patch tools/take_up.sh
