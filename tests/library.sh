# Sourced by the scripts that link the library, or run: what changed of it since the last time is proved and compiled anew, and it is put
# where they and the examples look for it.
set -e
(cd crates/exports_c && rt lib)
mkdir -p target/staticlib
cp crates/exports_c/out/libexports_c.a target/staticlib/libexports.a
