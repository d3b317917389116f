#!/usr/bin/env bash
# ./frondicare simulate and explain on the example boards: the boards as tests/vectors/boards.py makes them, the
# simulator's output by name and on standard input, and the text that stands beside each board. And explain with a board
# that cannot be, with standard input, and into a pipe that is closed.
set -euo pipefail
cd "$(dirname "$0")/../.."
said=$(mktemp)
trap 'rm -f "$said"' EXIT

failed() {
    echo "FAILED: $1" >&2
    exit 1
}

for board in update return interrupted; do
    file=examples/board/$board
    python3 tests/vectors/boards.py "$board" | cmp - "$file.bin"
    ./frondicare explain "$file.bin" | cmp - "$file.txt"
    ./frondicare simulate "$file.bin" >"$said"
    ./frondicare simulate <"$file.bin" | cmp - "$said"
done
./frondicare simulate examples/board/update.bin | cmp - crates/simulator/stdout
if ./frondicare simulate examples/board/missing.bin 2>/dev/null; then
    failed "a missing board"
fi
# Few sectors are never folded.
./frondicare explain --all - <examples/board/update.bin | cmp - examples/board/update.txt
for board in examples/board examples/board/missing.bin; do
    if ./frondicare explain "$board" >"$said" 2>&1; then
        failed "explain $board"
    fi
    [ "$(wc -l <"$said")" = 1 ] || failed "$(cat "$said")"
    grep -q "^./frondicare explain: $board: " "$said" || failed "$(cat "$said")"
done
{ ./frondicare explain examples/board/return.bin 2>"$said" || true; } | true
[ ! -s "$said" ] || failed "$(cat "$said")"
echo "example boards: 15 cases passed"
