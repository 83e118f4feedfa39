#!/bin/sh
# Compiles the classes here, and writes tests/tables/rules.
set -e
cd "$(dirname "$0")"
out=$(mktemp -d)
for main in Guard Nest Pairs Sums; do
    mkdir "$out/$main"
    javac --release 8 -nowarn -Xlint:-options -d "$out/$main" "$main"/*.java
done
python3 rows.py "$out"
rm -r "$out"
