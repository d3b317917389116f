# shellcheck shell=sh
# Sourced in the top folder by whatever proves here, since two at once spoil what the other goes on with, target/ and the
# programs in crates/*/out. Waits until nobody else holds the lock, which is on this file, and holds it as long as the
# process lives. What a holder calls goes on.
if [ "${FRONDICARE_LOCKED-}" != "$(pwd -P)" ]; then
    command -v flock >/dev/null || { echo "flock is not installed (Debian's package util-linux)" >&2 && exit 2; }
    exec 9<tools/lock.sh
    flock -n 9 || { echo "another command is proving here: waiting" >&2 && flock 9; }
    FRONDICARE_LOCKED=$(pwd -P)
    export FRONDICARE_LOCKED
fi
