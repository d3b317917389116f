#!/usr/bin/env bash
# ./frondicare digest against coreutils: sizes around the program's 64 KiB buffer, by name, on standard input and through
# a pipe in small writes; the longest input that has a digest and one byte more, with its status and its words.
set -euo pipefail
cd "$(dirname "$0")/../.."
work=$(mktemp -d)
trap 'rm -rf "$work"' EXIT

same() { # NAME EXPECTED GOT
    [ "$2" = "$3" ] || { echo "FAILED $1: expected $2, got $3"; exit 1; }
}

./frondicare digest </dev/null >/dev/null
# it is proved now, and that is not looked at again and again
mkdir "$work/bin"
printf '#!/bin/sh\necho "rt: running it" >&2\n' >"$work/bin/rt"
chmod +x "$work/bin/rt"
PATH=$work/bin:$PATH
for n in 0 1 63 64 65 65535 65536 65537 131072 200003; do
    head -c "$n" /dev/urandom >"$work/file"
    expected=$(sha256sum <"$work/file" | cut -d' ' -f1)
    same "file of $n" "$expected" "$(./frondicare digest "$work/file")"
    same "input of $n" "$expected" "$(./frondicare digest <"$work/file")"
    same "pipe of $n" "$expected" "$(dd if="$work/file" bs=1000 status=none | ./frondicare digest)"
done

# 4,294,967,295 zeros, against coreutils, and one more
head -c 4294967295 /dev/zero | ./frondicare digest >"$work/longest" &
status=0
refused=$(head -c 4294967296 /dev/zero | ./frondicare digest 2>"$work/said") || status=$?
wait
same "one byte too many" "1, " "$status, $refused"
grep -q "^./frondicare digest: refused: .* (12)$" "$work/said"
same "the longest input" 318eea1453f3a536e42d9637db593982c5c297220b2019bd4b7ad08e88d91e4b "$(cat "$work/longest")"
echo "digest command: 32 cases passed"
