#!/bin/sh
# Proves and builds the program, its crates side by side as far as processors and memory reach, and
# says on the standard error how far it is. Called as build.sh LOGS: each crate has a log there. Called as build.sh --sum
# it builds nothing, and tells the sum of all that goes into the program.
#
# rt lets nobody else into a crate that it works in or stands on. So each crate is built in a tree of
# its own, in which those below it are links to what is built here, and then put here, where rt finds
# it at the end, when it builds the program. What was not built until then it builds itself.

here=$(CDPATH='' cd -- "$(dirname -- "$0")" && pwd) || exit
logs=$1
room=$here/crates/goref_program/out/room

# The program's crates in the order of crates.txt, the lowest first, each with all those below it.
crates() {
    awk 'function add(more, low, number, at) {
            number = split(more, low)
            for (at = 1; at <= number; at++)
                if (!index(all " ", " " low[at] " ")) all = all " " low[at]
        }
        /^[^#]/ {
            name = $1; sub(/:$/, "", name)
            all = ""
            for (word = 2; word <= NF; word++) if ($word in below) add($word below[$word])
            below[name] = all
            order[++count] = name
        }
        END {
            for (place = 1; place <= count; place++)
                if (index(below["goref_program"] " ", " " order[place] " ")) print order[place] below[order[place]]
        }' "$here/crates.txt"
}

# The sum of the sources of the program's crates and of their lines in crates.txt, wherever these stand.
sum() {
    names="$(crates | cut -d ' ' -f 1) goref_program"
    cd "$here" && {
        for crate in $names; do
            grep -E "^$crate( [a-z]+)?:" crates.txt
        done
        for crate in $names; do
            find "crates/$crate/src" "crates/$crate/specs" -type f -print0
        done | LC_ALL=C sort -z | xargs -0 sha256sum
    } | sha256sum | cut -d ' ' -f 1
}

# How many crates are built at once: one for each processor and 4 GB of memory, and one at least.
places() {
    cat /proc/meminfo | awk -v most="$(nproc || echo 1)" '/^MemAvailable:/ { fit = int($2 / 4000000) }
        END { fit = fit < most ? fit : most; print fit < 1 ? 1 : fit }'
}

# How many jobs rt has for a crate, given how many are below it. Each job reads all of those for itself:
# with four of them a build takes more of the processors and of memory than with two, and ends no sooner.
jobs() {
    [ "$1" = 0 ] || [ "$most" = 1 ] && echo "$most" || echo 2
}

# Says something, in the place of the line on a terminal that follow keeps.
say() {
    [ -t 2 ] && printf '\r\033[K' >&2
    printf 'goref: %s\n' "$*" >&2
}

# How many files there are; a pattern that none has stands for itself.
count() {
    [ -e "$1" ] && echo $# || echo 0
}

# Begins the log of a crate, and says so where no line on a terminal is kept up to date.
begin() {
    echo "building $1" >"$logs/$1"
    [ -t 2 ] || say "proving $1, crate $(count "$logs"/*) of $all"
}

# A niceness for a crate: the more crates wait for it, the less it gives way to those beside it.
niceness() {
    above=$(grep -cw "$1" "$room/crates")
    echo $((above > 6 ? 0 : 19 - 3 * above))
}

# Builds a crate in a tree of its own, and puts here what comes of it.
build_apart() {
    name=$1
    own=$here/crates/$name
    tree=$room/$name
    mkdir -p "$tree/crates" && cp -Rl "$own" "$tree/crates" || return
    for crate in "$@"; do
        grep "^$crate:" "$here/crates.txt"
    done >"$tree/crates.txt"
    shift
    for low in "$@"; do
        mkdir -p "$tree/crates/$low/out" && cd "$here/crates/$low" &&
            cp -Rl src specs proofs "$tree/crates/$low" && cp -Rl out/rlib "$tree/crates/$low/out" || return
    done
    cd "$tree/crates/$name" && nice -n "$(niceness "$name")" rt lib --jobs "$(jobs $#)" || return
    # Not while another rt works in it, and not by half.
    flock "$own" sh -c 'trap "" TERM; rm -rf "$2" && mv "$1" "$2"' - out "$own/out"
}

# Builds a crate, and leaves a mark that says how that ended. Where it can't, the whole build ends:
# it would wait for that mark for ever.
build_one() {
    (build_apart "$@") >>"$logs/$1" 2>&1 && end=built || end=failed
    rm -rf "${room:?}/$1"
    echo "$end" >>"$logs/$1"
    : >"$room/$1.$end" || kill 0
}

# Whether what an earlier build made of a crate is newer than its sources and what is below it.
is_kept() {
    own=$here/crates/$1
    shift
    for low in "$@"; do
        set -- "$@" "$here/crates/$low/out/rlib/stamp"
        shift
    done
    [ -e "$own/out/rlib/stamp" ] && [ -z "$(find "$own/src" "$own/specs" "$own/proofs" "$@" \
        -newer "$own/out/rlib/stamp" -print -quit)" ]
}

are_built() {
    for low in "$@"; do
        [ -e "$room/$low.built" ] || return
    done
}

# Begins the crates in their order, each once those below it are built and a place is free. Where
# one fails, none is begun any more.
build_crates() {
    begun=0
    crates >"$room/crates" || return
    while [ "$(count "$room"/*.failed)" = 0 ] && [ "$begun" -lt $((all - 1)) ]; do
        while read -r crate below; do
            [ -e "$logs/$crate" ] || ! are_built $below && continue
            [ $((begun - $(count "$room"/*.built))) -lt "$most" ] || break
            begun=$((begun + 1))
            if is_kept "$crate" $below; then
                echo built >"$logs/$crate"
                : >"$room/$crate.built"
            else
                begin "$crate"
                build_one "$crate" $below </dev/null &
            fi
        done <"$room/crates"
        sleep 0.2
    done
    wait
}

# Keeps up to date a line on a terminal that says how far the crates are.
follow() {
    begun=$(date +%s)
    while sleep 1 && kill -0 $$ 2>/dev/null; do
        now=$(awk '
            /^building / { crate = $2; works[crate] = 1 }
            /^so far: / { done[crate] = $3; of[crate] = $5 }
            /^built$/ { built++ }
            /^(built|failed)$/ { delete works[crate] }
            END {
                for (crate in works) { names = names " " crate; checked += done[crate]; known += of[crate] }
                print built + 0 " of '"$all"' crates, " checked + 0 " of " known + 0 " functions of" names
            }' "$logs"/* 2>/dev/null)
        took=$(($(date +%s) - begun))
        printf '\r\033[K%.79s' "goref: $(printf '%d:%02d' $((took / 60)) $((took % 60))), $now" >&2
    done
}

if [ "$1" = --sum ]; then
    sum
    exit
fi
rm -rf "$room" "$logs"
mkdir -p "$room" "$logs" || exit
all=$(($(crates | wc -l) + 1))
most=$(places)
if [ -t 2 ]; then
    follow &
    follower=$!
fi
(build_crates)
for end in "$room"/*.failed; do
    name=$(basename "$end" .failed)
    [ -e "$end" ] && say "$name failed, and is built once more with nothing beside it: $logs/$name"
done
rm -rf "$room"
begin goref_program
(cd "$here/crates/goref_program" && rt run --jobs "$(jobs $((all - 1)))" -- --help) >>"$logs/goref_program" 2>&1
status=$?
[ -t 2 ] && kill "$follower"
exit "$status"
