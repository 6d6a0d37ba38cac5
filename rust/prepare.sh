# Sourced by compare, speed and stack: builds the proved libraries, and the programs here.
# With GLIDECOTTON_STAND_IN=1 the plain C interpreter takes the proved machine's place, to try the harness itself.
set -eu
stand_in=
if [ -n "${GLIDECOTTON_STAND_IN:-}" ]; then
    stand_in=--stand-in
else
    ../.ci/built libglidecotton.a libhost.a liblines.a libreader.a libtasks.a
fi
cargo build --release --offline --quiet
