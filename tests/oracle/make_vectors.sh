#!/bin/sh
# make_vectors.sh WORK_FOLDER SEED COUNT OUT
# After build.sh: writes the flat form to OUT and the text to WORK_FOLDER/vectors.txt, whose line i is record i.
set -eu
here=$(cd "$(dirname "$0")" && pwd)
"$1/target/release/vectors" "$2" "$3" > "$1/vectors.txt"
python3 "$here/pack.py" < "$1/vectors.txt" > "$4"
