# Sourced by differential/run, differential/valgrind and bench/run, with `here` a folder at the repository's root: goes to the root and
# builds both programs inside target/. Exit status 3: the Rust's source is not at hand.
if [ -d "${POCKETHLE_SRC:-}" ]; then POCKETHLE_SRC=$(cd "$POCKETHLE_SRC" && pwd); fi
if [ -d "${TILEFRINGE_LIB:-}" ]; then TILEFRINGE_LIB=$(cd "$TILEFRINGE_LIB" && pwd); fi
cd "$here/.."
source=${POCKETHLE_SRC:-../shared/docs/src/crates/pocket-gles/src}
for file in raster texture consts; do
    if [ ! -f "$source/$file.rs" ]; then
        echo "The Rust's source is not at hand ($source/$file.rs): nothing is compared with it; the recorded answers that rt ci replays are all there is." >&2
        exit 3
    fi
done
for archive in probes tilefringe; do
    if [ ! -f "${TILEFRINGE_LIB:-target/staticlib}/lib$archive.a" ]; then
        echo "${TILEFRINGE_LIB:-target/staticlib}/lib$archive.a is not there: make lib writes it to target/staticlib." >&2
        exit 1
    fi
done
root=$PWD
export CARGO_HOME="$root/target/cargo-home" CARGO_TARGET_DIR="$root/target/cargo"
POCKETHLE_SRC=$(cd "$source" && pwd)
export POCKETHLE_SRC
if [ -n "${TILEFRINGE_LIB:-}" ]; then export TILEFRINGE_LIB; fi
mkdir -p "$CARGO_HOME"
if ! (cd differential && cargo build --release --offline --locked --quiet); then
    echo "cargo build failed" >&2
    exit 1
fi
