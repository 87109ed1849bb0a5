#!/usr/bin/env bash
# Builds the C host programs against the static library into target/host, and some of them with AddressSanitizer into target/host/asan.
set -euo pipefail
cd "$(dirname "$0")/.."
mkdir -p target/host/asan
build() { cc -std=c11 -Wall -Wextra -Wpedantic -Werror -pthread -Ihost "$@" target/staticlib/libintake.a; }
for program in fields check ledger bad_calls stack histories; do
  build -O2 -o "target/host/$program" "host/$program.c"
done
for program in ledger bad_calls; do
  build -O1 -g -fsanitize=address,undefined -fno-sanitize-recover=all -o "target/host/asan/$program" "host/$program.c"
done
