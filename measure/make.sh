#!/bin/sh
# make.sh: makes all bundles, and the plain program.
set -e
cd -- "$(dirname -- "$(readlink -f -- "$0")")"
mkdir -p bundles
python3 bundles.py bundles
# what `gen` prints, and the same with a cache
fab=${FAB:-../crates/fab_cli/out/fab_cli}
"$fab" gen 7 1000 >bundles/gen-7-1000.fab
sed '$d' bundles/gen-7-1000.fab >bundles/gen-7-1000-cache-64.fab
printf '  cache 64;\n}\n' >>bundles/gen-7-1000-cache-64.fab
# the plain program, and the same with a text of its own for each name
rustc --edition 2024 -O plain/main.rs -o plain-fab
rustc --edition 2024 -O --cfg owned plain/main.rs -o plain-fab-owned
