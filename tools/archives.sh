#!/usr/bin/env bash
# Builds what the hosts, the comparison and the benchmark use, each proved with all below it: the static libraries into target/staticlib, and the desk program
# into target/bin. `tools/archives.sh intake` builds that library alone.
set -euo pipefail
cd "$(dirname "$0")/.."
mkdir -p target/staticlib target/bin
if [ $# -eq 0 ]; then
  set -- comparison intake desk
fi
for name in "$@"; do
  if [ "$name" = desk ]; then
    (cd crates/desk && rt run < stdin > /dev/null)
    install -m 755 crates/desk/out/desk target/bin/
  else
    (cd "crates/$name" && rt lib)
    install -m 644 "crates/$name/out/lib$name.a" target/staticlib/
  fi
done
