# For the scripts beside it, which read it behind common.sh: whole crates in folders, and the source of std.
# shellcheck shell=bash disable=SC2034,SC2154 # `work` is of common.sh; `folders` and `std` are for the script

default='anyhow bindgen bitflags bytes cc chrono clap crossbeam-utils futures-util hyper indexmap itertools libc log memchr mio
nom num-traits proc-macro2 quote rand rayon regex semver serde serde-json smallvec syn thiserror time tokio toml tracing-core
url uuid'

# Downloads packages, and rust-src, and unpacks them: sets `folders`, and `std` where that is not said.
download() {
    local package names=(rust-src)
    for package in ${PACKAGES-$default}; do
        names+=("librust-$package-dev")
    done
    mkdir -p "$work/packages" "$work/unpacked" || exit 2
    (cd "$work/packages" && apt-get download "${names[@]}" >/dev/null 2>&1) || { echo 'bench: apt-get download failed' >&2; exit 2; }
    for package in "$work"/packages/*.deb; do
        dpkg -x "$package" "$work/unpacked" || exit 2
    done
    folders=("$work/unpacked/usr/share/cargo/registry")
    [ -n "$std" ] || std=$(echo "$work"/unpacked/usr/src/rustc-*/library)
}

# The folders of packages that are named, or those of Debian: sets `folders` and `std`, which STD can name.
crates_in() {
    std=${STD-}
    folders=("$@")
    for folder in "$@"; do
        [ -d "$folder" ] || { echo "bench: there is no folder $folder" >&2; exit 2; }
    done
    [ $# != 0 ] || download
    [ -f "$std/core/src/macros/mod.rs" ] || { echo 'bench: there is no source of std; STD can name it' >&2; exit 2; }
}
