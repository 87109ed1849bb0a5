#!/usr/bin/env bash
# Tests of the C side, once the archive and the host programs are built (tools/archives.sh intake && host/build.sh).
set -euo pipefail
cd "$(dirname "$0")/.."

work=$(mktemp -d)
trap 'kill $(jobs -p) 2> "$work/kill" || true; rm -rf "$work"' EXIT
memcheck=(valgrind --quiet --error-exitcode=99 --leak-check=full --main-stacksize=67108864 --max-stackframe=16777216)

# What a test printed must be what is stored.
same() {
  diff -u "$2" "$3" || { echo "$1: not what $2 has" >&2; exit 1; }
  echo "$1: same"
}

host/ledger.sh "${memcheck[@]}" target/host/ledger > "$work/ledger.valgrind" &
ledger=$!

for file in crates/examples/data/*.csv; do
  cmp "$file" "samples/desk-$(basename "$file")"
done

warnings=(-Wall -Wextra -Wpedantic -Werror)
cc -std=c11 "${warnings[@]}" -fsyntax-only -x c host/intake.h
c++ -std=c++11 "${warnings[@]}" -fsyntax-only -x c++ host/intake.h
echo 'intake.h: C11 and C++'

# The archive asks the C library for nothing but copies and fills of memory, and has no data that changes.
nm target/staticlib/libintake.a > "$work/symbols"
if grep -E ' [bBcCdDgGsSuvVwW] | U ' "$work/symbols" | grep -vE ' U (memcpy|memset)$'; then
  echo 'libintake.a: symbols that it should not have' >&2
  exit 1
fi
echo 'libintake.a: no other memory, no data that changes'

target/host/bad_calls > "$work/bad_calls"
same 'bad calls' host/bad_calls.expected "$work/bad_calls"
"${memcheck[@]}" target/host/bad_calls > "$work/bad_calls"
same 'bad calls, valgrind' host/bad_calls.expected "$work/bad_calls"
target/host/asan/bad_calls > "$work/bad_calls"
same 'bad calls, AddressSanitizer' host/bad_calls.expected "$work/bad_calls"

# The sizes and offsets that the header's comments give are those of the compiler.
awk 'match($0, /: [0-9]+ bytes\./) { size = substr($0, RSTART + 2) + 0 }
  /^struct intake_[a-z_]+ \{/ { name = $2; print name, size }
  /^    u?int64_t / { sub(";", "", $2); sub(":", "", $4); print name "." $2, $4 }
  /^    struct intake_[a-z_]+ [a-z]+; / { sub(";", "", $3); sub(":", "", $5); print name "." $3, $5 }' host/intake.h | sort > "$work/said"
grep '^intake_' "$work/bad_calls" | sort > "$work/placed"
same 'sizes and offsets in intake.h' "$work/placed" "$work/said"

host/ledger.sh target/host/ledger > "$work/ledger"
same 'ledger' host/ledger.expected "$work/ledger"
target/host/ledger samples/desk-{a,b,c}.csv --disputes 1 20240301120000 | grep '^TBD' > "$work/dispute"
same 'the dispute of the desk examples' samples/dispute.txt "$work/dispute"
host/ledger.sh target/host/asan/ledger > "$work/ledger"
same 'ledger, AddressSanitizer' host/ledger.expected "$work/ledger"

# The host that docs/HOST.md has, linked as it says.
awk '/^```/ { n++; next } n == 1' docs/HOST.md > "$work/nightly.c"
awk '/^```/ { n++; next } n == 3' docs/HOST.md > "$work/nightly.expected"
host/install.sh "$work/prefix"
read -ra flags <<< "$(PKG_CONFIG_PATH="$work/prefix/lib/pkgconfig" pkg-config --cflags --libs intake)"
cc -std=c11 "${warnings[@]}" -O2 -o "$work/nightly" "$work/nightly.c" "${flags[@]}"
(
  cd samples
  "${memcheck[@]}" "$work/nightly" "$work/archive" desk-a.csv desk-b.csv
  "${memcheck[@]}" "$work/nightly" "$work/archive" desk-b.csv desk-c.csv
) > "$work/nightly.printed"
same 'the host of docs/HOST.md, valgrind' "$work/nightly.expected" "$work/nightly.printed"

host/refusals.py

echo "stack of INTAKE_STACK bytes; KiB touched: $(target/host/stack | paste -sd ' ')"

wait "$ledger"
same 'ledger, valgrind' host/ledger.expected "$work/ledger.valgrind"
