#!/bin/sh
# layout.sh ROOT FOLDER
# Puts ROOT's crates into FOLDER, and the calls to be timed beside them as the crate `timed`. Inputs are read as crates/comparison reads them.
set -eu
here=$(cd "$(dirname "$0")" && pwd)
root=$(cd "$1" && pwd)
mkdir -p "$2"
folder=$(cd "$2" && pwd)
rm -rf "$folder/crates"
cp -R "$root/crates" "$root/crates.txt" "$folder/"
rm -rf "$folder"/crates/*/out
timed="$folder/crates/timed"
mkdir -p "$timed/src"
for file in "$here"/timed/*.rt.txt; do cp "$file" "$timed/src/$(basename "$file" .txt)"; done
for file in fault reader forms arguments sets; do cp "$root/crates/comparison/src/$file.rt" "$timed/src/"; done
echo "timed staticlib: $(sed -n 's/^comparison: //p' "$root/crates.txt")" >> "$folder/crates.txt"
