# Sourced by the scripts that build Rust. Its installer puts rustc below the home directory, where not every shell looks.
if ! command -v rustc > /dev/null; then
    home=$(getent passwd "$(id -u)" | cut -d: -f6)
    export PATH="$PATH:$home/.cargo/bin" RUSTUP_HOME="${RUSTUP_HOME:-$home/.rustup}"
fi
if ! command -v rustc > /dev/null; then
    echo "rustc is not found, which the outside tests, the benchmark and the example in Rust are built with" >&2
    exit 1
fi
