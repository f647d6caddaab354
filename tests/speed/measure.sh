#!/bin/sh
# measure.sh SOURCE_FOLDER WORK_FOLDER [RUNS]
# Times the Rust of SOURCE_FOLDER and the proved library in one process, RUNS (10) times, and writes docs/SPEED.md's tables and docs/speed.svg
# from the medians. WORK_FOLDER stays outside the repository; its times-1.csv and so on have what was measured.
set -eu
here=$(cd "$(dirname "$0")" && pwd)
root=$(cd "$here/../.." && pwd)
source=$(cd "$1" && pwd)
mkdir -p "$2"
work=$(cd "$2" && pwd)
runs=${3:-10}

# the Rust, and the proved library with the calls to be timed
"$here/../oracle/build.sh" "$source" "$work" --profile plain
"$here/layout.sh" "$root" "$work/proved"
(cd "$work/proved" && git init -q . && cd crates/timed && rt lib)

# both in one program
mkdir -p "$work/speed"
cp -R "$here/bench/." "$work/speed/"
sed -i 's/"driver"\]/"driver", "speed"]/' "$work/Cargo.toml"
export TIMED_LIBRARY="$work/proved/crates/timed/out" HEAP_LIBRARY="$(dirname "$(rt doc)")/c"
(cd "$work" && cargo build --offline --profile plain -p speed)
rm -f "$work"/times-*.csv
for run in $(seq "$runs"); do "$work/target/plain/speed" > "$work/times-$run.csv"; done
python3 "$here/report.py" "$root/docs" "$work"/times-*.csv
