#!/bin/sh
# Runs the proved program, and builds it first where it is missing or older than its sources.
# Its words go to the program as they are. What the build says goes to standard error; where the build fails, the
# status is 125, which is none of the program's.

root=$(dirname -- "$(readlink -f -- "$0")")
program=$root/build/dart
stamp=$root/build/sources
log=$root/build/log

is_current() {
    [ -x "$program" ] && [ -f "$stamp" ] && [ "$("$root/.ci/sources")" = "$(cat -- "$stamp")" ]
}

say() {
    printf 'dart: %s\n' "$1" >&2
}

fail() {
    say "$1"
    exit 125
}

# The crates that the program is built from, lowest first, as crates.txt has them.
crates() {
    awk -F: '
        !/^#/ && NF > 1 { split($1, words, " "); name[++n] = words[1]; below[n] = $2 }
        END {
            needed["dart"]
            for (i = n; i > 0; i--) if (name[i] in needed) {
                list = name[i] " " list
                k = split(below[i], words, " ")
                for (j = 1; j <= k; j++) needed[words[j]]
            }
            print list
        }' "$root/crates.txt"
}

# How far the proof is that writes the log: the crate that it has come to, and how many of its functions are checked.
progress() {
    awk -v names="$1" '
        BEGIN { n = split(names, name, " "); at = 1 }
        {
            for (i = at + 1; i <= n; i++)
                if (index($0, " " name[i] "::") || $0 ~ "^rt: chose .* for " name[i] "$") { at = i; checked = "" }
        }
        /^so far: [0-9]+ of [0-9]+ functions/ { checked = ": " $3 " of " $5 " functions" }
        /^logic=proved/ && at < n { at++; checked = "" }
        END { printf "crate %d of %d, %s%s\n", at, n, name[at], checked }' "$log"
}

# Says it each time that it has changed, as long as the launcher is there.
show_progress() {
    names=$(crates)
    shown=
    while sleep 2 2>/dev/null && kill -0 $$ 2>/dev/null; do
        now=$(progress "$names")
        [ "$now" = "$shown" ] || say "$now"
        shown=$now
    done
}

# Proves and builds the libraries that the program stands on, each by itself and not from all the sources below it.
prove_libraries() {
    for name in $(crates); do
        [ "$name" = dart ] || (cd -- "$root/crates/$name" && rt lib) || return
    done
}

# Proves and builds the program by a run of it, whose answer is known.
build() {
    command -v rt >/dev/null || fail "the toolchain's command rt isn't on the path"
    say 'proving and building the program; the first time takes two hours or more'
    say "unproved, a program runs after some minutes: cd $root/crates/dart && rt try --data a.dart=FILE -- run a.dart"
    before=$("$root/.ci/sources")
    : >"$log"
    show_progress >/dev/null 9>&- &
    showing=$!
    answer=$({ prove_libraries >&2 && cd -- "$root/crates/dart" && rt run -- run data/a.dart; } 2>"$log" </dev/null 9>&-)
    status=$?
    kill "$showing" 2>/dev/null
    if [ "$status" != 0 ] || [ "$answer" != 3 ]; then
        tail -n 5 -- "$log" >&2
        fail "the program can't be built; $log has all that was said"
    fi
    cp -- "$root/crates/dart/out/dart" "$program.new" && mv -- "$program.new" "$program" &&
        printf '%s\n' "$before" >"$stamp.new" && mv -- "$stamp.new" "$stamp" || fail "$root/build can't be written"
}

if ! is_current; then
    mkdir -p -- "$root/build" || fail "$root/build can't be made"
    exec 9>"$root/build/lock" || fail "$root/build can't be written"
    flock 9 || fail "$root/build/lock can't be locked"
    is_current || build
    exec 9>&-
fi
# A tree of 300 nodes above one another takes up to 5 MB of stack to read, and that is more than some systems give.
ulimit -s 32768 2>/dev/null || :
exec "$program" "$@"
