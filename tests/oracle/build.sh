#!/bin/sh
# build.sh SOURCE_FOLDER WORK_FOLDER [cargo arguments]
# Lays out WORK_FOLDER as a cargo workspace, the Rust files of SOURCE_FOLDER byte for byte beside the stand-ins and
# programs of this folder, and builds it offline with Debian's crate sources. Writes nothing outside WORK_FOLDER.
set -eu
here=$(cd "$(dirname "$0")" && pwd)
source=$(cd "$1" && pwd)/struqture/src
mkdir -p "$2"
work=$(cd "$2" && pwd)
shift 2

put() { # put FILE PLACE, untouched where it is the same
  mkdir -p "$(dirname "$work/$2")"
  cmp -s "$1" "$work/$2" || cp "$1" "$work/$2"
}
for file in lib spins/mod spins/pauli_product spins/decoherence_product spins/plus_minus_product spins/pauli_operator \
  spins/pauli_hamiltonian spins/decoherence_operator spins/pauli_noise_operator spins/pauli_open_system; do
  put "$source/$file.rs" "struqture/src/$file.rs"
done
for file in prelude bosons fermions mixed_systems mappings serialisation_meta_information \
  spins/plus_minus_operator spins/plus_minus_noise_operator; do
  put "$here/standin/struqture/$file.rs" "struqture/src/$file.rs"
done
put "$here/standin/struqture/Cargo.toml" struqture/Cargo.toml
put "$here/standin/qoqo_calculator/Cargo.toml" qoqo_calculator/Cargo.toml
put "$here/standin/qoqo_calculator/src/lib.rs" qoqo_calculator/src/lib.rs
(cd "$here/driver" && find . -type f) | while read -r file; do put "$here/driver/$file" "driver/$file"; done

mkdir -p "$work/.cargo"
cat > "$work/.cargo/config.toml" <<'TOML'
[source.crates-io]
replace-with = "debian"
[source.debian]
directory = "/usr/share/cargo/registry"
TOML
cat > "$work/Cargo.toml" <<'TOML'
[workspace]
members = ["struqture", "qoqo_calculator", "driver"]
resolver = "2"
[profile.release]
overflow-checks = true
[profile.plain]
inherits = "release"
overflow-checks = false
TOML
cd "$work"
[ $# -gt 0 ] || set -- --release
exec cargo build --offline "$@"
