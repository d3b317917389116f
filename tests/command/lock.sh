#!/usr/bin/env bash
# Two commands at once: one waits and says so, and both answer; and what is said while a program is proved. On a copy,
# with a stand-in for rt that proves nothing: it makes the program where it has no stamp, not before the file go is
# there, and notes where another call comes in.
set -euo pipefail
root=$(cd "$(dirname "$0")/../.." && pwd)
work=$(mktemp -d)
trap 'touch "$work/go" && rm -rf "$work"' EXIT
cd "$work"
mkdir -p clone/docs clone/crates/digest/{src,out} bin
cp -r "$root"/{frondicare,commands,model,picture,include,tools} clone
cat >bin/rt <<'RT'
#!/bin/sh
[ "$*" = run ] && [ "${PWD##*/}" = digest ] || exit 2
mkdir busy || echo "$$" >>overlaps
echo "$$" >>calls
if [ -e out/digest.stamp ]; then
    echo "rt: nothing has changed since the last proved build, by out/digest.stamp, so nothing is checked now" >&2
else
    echo "rt: chose --jobs 2 for digest" >&2
    printf '#!/bin/sh\necho half a program\n' >out/digest
    chmod +x out/digest
    while [ -d out ] && [ ! -e ../../../go ]; do sleep 0.05; done
    printf '#!/bin/sh\necho "answer-$(cat)"\n' >out/digest
    echo "logic=proved functions=7" >&2
    touch out/digest.stamp
fi
echo "rt: running out/digest; to give it other input, run that file yourself" >&2
out/digest
sleep 0.1
rmdir busy
RT
chmod +x bin/rt
export PATH=$work/bin:$PATH FRONDICARE_BUILT=

fail() {
    echo "FAILED two commands at once: $*"
    exit 1
}
until_true() { # COMMAND..
    for _ in {1..200}; do
        ! "$@" || return 0
        sleep 0.05
    done
    fail "never true: $*"
}
changed() { # so that the program is to be made again, as if it had never been
    rm -f go clone/crates/digest/out/*
}
digest() { # NAME: ./frondicare digest on that word
    echo "$1" | timeout 20 clone/frondicare digest >"$1.out" 2>"$1.err" || true
}
answered() { # NAME..
    for name; do [ "$(cat "$name.out")" = "answer-$name" ] || fail "$name: $(cat "$name.out" "$name.err")"; done
    [ ! -e clone/crates/digest/overlaps ] || fail "calls of rt overlap: $*"
}
wait_said() { # NUMBER NAME..: so many of them have said that they wait
    local said
    said=$(cat "${@/%/.err}" 2>/dev/null | grep -cx "another command is proving here: waiting" || true)
    [ "$said" = "$1" ]
}

changed
digest first & digest second & digest third &
until_true wait_said 2 first second third
touch go
wait
answered first second third

digest alone
answered alone
[ ! -s alone.err ] || fail "it waits for nobody, and nothing is proved: $(cat alone.err)"

# What is said while a program is proved: by whoever proves it, when that begins and with each crate. Whoever waits has
# nothing to prove then.
said_is() { # NAME TEXT
    [ "$(sed 's/([0-9]* s)$/(7 s)/' "$1.err")" = "$2" ] || fail "$1 says: $(cat "$1.err")"
}
changed
digest new &
until_true grep -qs . new.err
digest behind &
until_true wait_said 1 behind
touch go
wait
answered new behind
said_is new "digest is proved and built first, with all that it rests on: some minutes, once
digest is proved (7 s)"
said_is behind "another command is proving here: waiting"
rm go clone/crates/digest/out/digest.stamp
digest stale &
until_true grep -qs . stale.err
touch go
wait
answered stale
said_is stale "digest or something that it rests on has changed: it is proved and built again
digest is proved (7 s)"

# beside rt by hand, from another folder
changed
(cd clone/docs && ../tools/rt run digest </dev/null >/dev/null 2>&1) &
until_true test -e clone/crates/digest/busy
digest beside &
until_true wait_said 1 beside
touch go
wait
answered beside

# in a pipe, where the second one begins before the first and ends after it
(sleep 0.5 && digest piped && cat piped.out) | timeout 20 clone/frondicare digest >pipe.out 2>pipe.err || true
answered piped
[ "$(cat pipe.out)" = "answer-answer-piped" ] || fail "in a pipe: $(cat pipe.out pipe.err)"

# a holder, as the gate is: what it calls goes on, one after the other; others wait until it ends
changed
(
    cd clone && . tools/lock.sh && cd ..
    touch held
    digest inner & digest inner_too &
    until_true wait_said 1 outer
    touch go
    wait
    [ -s outer.out ] || touch kept_out
) &
until_true test -e held
FRONDICARE_LOCKED=$work/other digest outer
wait
answered inner inner_too outer
wait_said 0 inner inner_too || fail "what a holder calls waits for it"
[ -e kept_out ] || fail "a holder keeps nobody out"

# a holder that is killed, with what it started
changed
set -m
clone/tools/rt run digest </dev/null >/dev/null 2>&1 &
holder=$!
until_true test -e clone/crates/digest/busy
digest next &
until_true wait_said 1 next
changed
rmdir clone/crates/digest/busy
{ kill -KILL -- -$holder && touch go && wait; } 2>/dev/null || fail "no holder to kill"
answered next

# no flock, and no such crate
mkdir few
for command in sh dirname; do ln -s "$(command -v "$command")" few; done
if PATH=$work/few clone/tools/rt run digest 2>few.err; then fail "no flock, and no word about it"; fi
grep -q "^flock is not installed" few.err || fail "no flock: $(cat few.err)"
if clone/tools/rt run digests 2>few.err; then fail "no crate of that name, and no word about it"; fi
grep -q "no crate 'digests'$" few.err || fail "no crate: $(cat few.err)"
echo "two commands at once: $(wc -l <clone/crates/digest/calls) calls of rt, one after the other"
