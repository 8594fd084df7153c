# shellcheck shell=bash
# Sourced by the scripts that link the library. CHAMROLAK_ARCHIVE is its archive: the one named there
# already, or the one that ./build.sh makes.
CHAMROLAK_ARCHIVE=${CHAMROLAK_ARCHIVE:-$(dirname "${BASH_SOURCE[0]}")/target/staticlib/libchamrolak.a}
CHAMROLAK_ARCHIVE=$(realpath --canonicalize-missing "$CHAMROLAK_ARCHIVE")
export CHAMROLAK_ARCHIVE
if [ ! -f "$CHAMROLAK_ARCHIVE" ]; then
    echo "There is no library at $CHAMROLAK_ARCHIVE: make it with './build.sh', or name one in CHAMROLAK_ARCHIVE." >&2
    exit 1
fi
