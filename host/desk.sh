#!/usr/bin/env bash
# Runs a desk program (its path is the argument) on every sample, on no input, and on input that is one byte longer than it may be: a line for each.
set -euo pipefail
cd "$(dirname "$0")/.."
for sample in samples/*.csv; do
  printf '%s ' "$(basename "$sample")"
  "$1" < "$sample"
done
printf 'no input '
"$1" < /dev/null
printf 'of 65,537 bytes '
head -c 65537 /dev/zero | "$1"
