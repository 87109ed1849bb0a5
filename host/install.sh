#!/usr/bin/env bash
# Makes the library ready to link under a folder, PREFIX: lib/libintake.a, include/intake.h and lib/pkgconfig/intake.pc. The folder may be moved afterwards.
# Builds the archive where it isn't there.
set -euo pipefail
if [ $# -ne 1 ]; then
  echo 'usage: host/install.sh PREFIX' >&2
  exit 2
fi
mkdir -p "$1"
prefix=$(cd "$1" && pwd)
cd "$(dirname "$0")/.."
if [ ! -f target/staticlib/libintake.a ]; then
  tools/archives.sh intake
fi
install -d "$prefix/lib/pkgconfig" "$prefix/include"
install -m 644 target/staticlib/libintake.a "$prefix/lib/"
install -m 644 host/intake.h "$prefix/include/"
cat > "$prefix/lib/pkgconfig/intake.pc" <<'PC'
prefix=${pcfiledir}/../..

Name: intake
Description: Intake of tariff bill files (AUC Rule 004) into a ledger
Version: 1
Cflags: -I${prefix}/include
Libs: -L${prefix}/lib -lintake
PC
