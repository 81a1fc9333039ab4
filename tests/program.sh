# Sourced by the scripts that run the figures program: what changed of it since the last time is proved and built anew, run once on the text
# that stands beside it, and put where they look for it.
(cd crates/figures && rt run < stdin) | cmp - crates/figures/stdout
mkdir -p target/bin
cp crates/figures/out/figures target/bin/figures
