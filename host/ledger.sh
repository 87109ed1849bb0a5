#!/usr/bin/env bash
# Runs the ledger program (its command is the arguments) on lists of sample files, and with bad usage, and prints what each call writes and its exit status.
set -euo pipefail
cd "$(dirname "$0")/.."

program=("$@")
output=$(mktemp)
errors=$(mktemp)
trap 'rm -f "$output" "$errors"' EXIT

show() {
  local status=$1
  shift
  printf '$ ledger'
  for word in "$@"; do printf ' %q' "$word"; done
  echo
  cat "$output"
  sed 's/^/stderr: /' "$errors"
  echo "status $status"
}

call() {
  local status=0
  "${program[@]}" "$@" > "$output" 2> "$errors" || status=$?
  show "$status" "$@"
}

# A call whose output can't be written.
call_unwritten() {
  local status=0
  "${program[@]}" "$@" > /dev/full 2> "$errors" || status=$?
  : > "$output"
  show "$status" "$@"
}

about() { printf '\n# %s\n' "$*"; }

s=samples
site=20000000001

about 'A books January, 100.00. B cancels it and rebills 90.00.'
call $s/desk-a.csv $s/desk-b.csv --find 00$site 20240101 --find $site 20240131 --find $site 20240201
about 'A cancel of -99.99 instead.'
call $s/desk-a.csv $s/desk-cancel-of-another-amount.csv
about "B's cancel sent again under new IDs."
call $s/desk-a.csv $s/desk-b.csv $s/desk-cancel-sent-again.csv
about 'A cancel without a reference, and then one with it.'
call $s/desk-a.csv $s/cancel-without-reference.csv $s/desk-b.csv
about 'C brings 31 January to 27 February, 50.00.'
call $s/desk-a.csv $s/desk-b.csv $s/desk-c.csv --entries --find $site 20240131 --find $site 20240201
about 'A dispute of each period that is held: of one; of its rebill, once it is cancelled; of two, their Transaction IDs counted on.'
call $s/desk-a.csv $s/desk-b.csv $s/desk-c.csv --disputes 1 20240301120000
call $s/desk-a.csv $s/desk-b.csv $s/desk-c.csv $s/cancel-of-a-held-period.csv --disputes 1 20240301120000
call $s/desk-a.csv $s/desk-c.csv $s/january-again.csv --entries --disputes 999 20240301120000
about 'Disputes created at no time; with a Transaction ID that is too long.'
call $s/desk-a.csv $s/desk-c.csv --disputes 1 20240301126000
call $s/desk-a.csv $s/desk-c.csv --disputes 1000000000000000 20240301120000
about 'With one entry left, a file of FH and one OC; then with two.'
call --places 3 $s/desk-a.csv $s/desk-one-time-charge.csv
call --places 4 $s/desk-a.csv $s/desk-one-time-charge.csv
about 'The rebill stands before the cancel.'
call $s/desk-a.csv $s/desk-rebill-before-cancel.csv

about 'Cancels of rebills and of a held period; January again, when another period has 31 January.'
call $s/desk-a.csv $s/desk-b.csv $s/rebill-of-a-rebill.csv $s/desk-c.csv $s/cancel-of-a-rebill.csv $s/cancel-of-a-held-period.csv $s/january-again.csv \
  --find $site 20240130 --find $site 20240131 --find $site 20240227 --find $site 20240228
about 'Refused files between accepted ones, of both commodities.'
call $s/test-02.csv $s/valid-electricity.csv $s/test-18.csv $s/valid-electricity.csv $s/valid-gas.csv $s/test-08.csv $s/test-39.csv $s/test-40.csv \
  $s/cancel-and-rebill.csv $s/test-34.csv $s/number-103.csv $s/cancel-and-rebill-gas.csv $s/cancel-and-rebill.csv --find 20000002006 20240115
about 'A Record ID that is stored.'
call $s/desk-a.csv $s/number-102.csv $s/desk-b.csv

about 'A credit: amounts below zero.'
call $s/desk-a.csv $s/credit.csv

about 'Another retailer; another distributor.'
call --retailer 496289485 $s/test-11.csv
call --distributors 00407336 $s/desk-a.csv $s/test-12.csv
about 'Settings, runs and counts that are refused.'
call --retailer 1000000000 $s/desk-a.csv
call --distributors 004 $s/desk-a.csv
call --distributors '' $s/desk-a.csv
call --places 0 $s/desk-a.csv
call --places 9000 $s/desk-a.csv --find $site 20240101
call --places 4 --used 1 $s/desk-a.csv --entries --find $site 20240101
call --places 4 --used 9223372036854775808 $s/desk-a.csv --entries --find $site 20240101
about 'Sites and days at and past their limits.'
call --find 9999999999999 20991231 --find 10000000000000 20240101 --find $site 20230229 --find $site 21000101

about 'Files of no bytes and of more than are read.'
call /dev/null /dev/zero

about 'The options; no file; bad usage; files that cannot be read.'
call --help
call
call -- --places
call --places
call --places twelve
call --places 18446744073709551616
call --places 18446744073709551615
call --find $site
call --disputes 1
call --disputes one 20240301120000
call --nothing $s/desk-a.csv
call $s/desk-a.csv $s/missing.csv $s/desk-b.csv
call $s/desk-a.csv $s
about 'Output that cannot be written.'
call_unwritten $s/desk-a.csv
