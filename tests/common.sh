# What the test scripts share. Each sources this file first:
#     . "$(dirname "$0")/common.sh" || exit 2
# The working directory is then the repository's root, and $work is a new folder that is removed when the script ends.
# shellcheck shell=bash disable=SC2034 # the scripts that source this file use its variables
set -u
cd "$(dirname "${BASH_SOURCE[0]}")/.." || exit 2

reference=reference/target/release/reference
tsj=target/bin/tsj
tsr=target/bin/tsr

work=$(mktemp -d) || exit 2
trap 'rm -rf "$work"' EXIT

# fail WORDS: says on standard error what is wrong, and ends the script with status 1.
fail() {
    printf 'tests/%s: %s\n' "${0##*/}" "$1" >&2
    exit 1
}

# build_reference: builds $reference from the sources as they are now.
build_reference() {
    cargo build --release --offline --quiet --manifest-path reference/Cargo.toml || fail 'the reference program does not build'
}

# build_program NAME: proves and builds $tsj or $tsr where it is missing or a source is newer.
build_program() {
    (. tools/run_program && make_program "$PWD" "$1") || fail "$1 does not build"
}
