#!/usr/bin/env bash
# Renames the crate `check` to `plancheck`: today's kit has a library of the name `check`.
# Run once at the top of the repository, after respell.py. The function `check` keeps its name.
set -euo pipefail
git mv crates/check crates/plancheck
sed -i -E '/^#/! s/(^|[: ])check(:| |$)/\1plancheck\2/g' crates.txt
grep -rlE 'Rattle\.check\.|\bcheck::' crates docs bench | while read -r file; do
  sed -i -E 's/Rattle\.check\./Rattle.plancheck./g; s/\bcheck::(check|pass)\b/plancheck::\1/g' "$file"
done
