#!/bin/sh
# Runs the proved program with the words that are given, on standard input. Where the sources have changed since it was
# built, it is proved and built first: how far that is goes to standard error, and what the prover says to a log.
#
# The status is the program's own, or 125 where it could not be built.
set -u
unset RT_BACKEND CDPATH

# What the first build took, on which machine.
first_build='a little more than two hours on a machine with four processors that had other work too'

say() {
    printf 'oz: %s\n' "$*" >&2
}

fail() {
    say "$1"
    exit 125
}

# The crates that the program stands on, and itself.
crates() {
    awk '
        NF && !/^#/ {
            split($0, halves, ":")
            split(halves[1], head, " ")
            name[++count] = head[1]
            uses[head[1]] = halves[2]
        }
        function visit(crate,    many, used, j) {
            if (crate in seen) return
            seen[crate]
            many = split(uses[crate], used, " ")
            for (j = 1; j <= many; j++) if (used[j] in uses) visit(used[j])
        }
        END {
            visit("oz")
            for (i = 1; i <= count; i++) if (name[i] in seen) print name[i]
        }
    ' "$top/crates.txt"
}

# The same, each with the bytes of the crate's sources and proofs, by which the time that is left is estimated.
weighed() {
    crates | while read -r name; do
        bytes=$(find "$top/crates/$name" -name out -prune -o -type f \( -name '*.rt' -o -name '*.antt' \) -exec cat {} + | wc -c)
        printf '%s %s\n' "$name" $((bytes))
    done
}

# How many crates are proved side by side: one a processor, as far as there are four GB of memory for each.
lanes() {
    processors=$(getconf _NPROCESSORS_ONLN)
    awk -v processors="$processors" '
        /^MemAvailable:/ { fits = int($2 / 4000000) }
        END { print fits < 1 ? 1 : (fits < processors ? fits : processors) }
    ' /proc/meminfo 2>/dev/null || echo 1
}

# How long the crates take that are not done, by how long those took that are. Nothing where none is done.
left() {
    printf '%s\n' "$weights" | awk -v finished=" $finished " -v spent=$(($(date +%s) - began)) '
        { all += $2 }
        index(finished, " " $1 " ") { had += $2 }
        END {
            if (!had) exit
            minutes = int(spent * (all - had) / had / 60 + 0.5)
            if (minutes > 1) print ", about " minutes " minutes left"
            else if (minutes == 1) print ", about a minute left"
            else print ", less than a minute left"
        }'
}

# The line of progress. On a terminal it stands in the place of the one before.
progress() {
    line="oz: $done of $total crates done$(left)"
    if [ -t 2 ]; then
        columns=$(stty size </dev/tty 2>/dev/null | cut -d ' ' -f 2)
        printf '\r\033[K%.*s' "$((${columns:-80} - 1))" "$line" >&2
    else
        printf '%s\n' "$line" >&2
    fi
}

# Ends the line of progress on a terminal.
end_progress() {
    if [ -t 2 ]; then printf '\r\033[K' >&2; fi
}

# Reads what rt says: it begins what it says of a crate that is done with a line '== NAME', and ends with a line for each crate.
watch() {
    done=0
    finished=
    status=1
    at_end=
    while IFS= read -r line; do
        case $line in
        '== summary') at_end=1 ;;
        '== status '*) status=${line#== status } ;;
        '== '*)
            done=$((done + 1))
            finished="$finished ${line#== }"
            progress
            ;;
        *': ok') ;;
        *': '*) [ -z "$at_end" ] || { end_progress && say "$line"; } ;;
        esac
    done
    end_progress
    [ "$status" -eq 0 ]
}

# Proves all crates, side by side, and then the program is built and tried on the smallest text.
build() {
    command -v rt >/dev/null 2>&1 ||
        fail 'the program is not built, or its sources have changed, and the command rt of the Rattle toolchain, which proves and builds it, is not on PATH'
    weights=$(weighed)
    total=$(printf '%s\n' "$weights" | wc -l)
    total=$((total))
    log=$top/build/log
    say "the program is not built for these sources: proving and building $total crates. The first time this took $first_build; later only what has changed is proved"
    mkdir -p "$top/build" && : >"$log" || fail "$log cannot be written"
    say "what the prover says goes to $log"
    began=$(date +%s)
    (
        cd "$top/crates/oz" && rt all check --jobs "$(lanes)" </dev/null 2>&1
        echo "== status $?"
    ) | tee "$log" | watch || fail "a crate was not proved, so nothing was built: $log says why"
    (cd "$top/crates/oz" && echo 'proc {Script R} choice fail end end' | rt run -- all) >/dev/null 2>>"$log" ||
        fail "oz was not proved, or could not be built: $log says why"
    [ "$("$top/.ci/stamp")" = "$stamp" ] || fail 'the sources were changed meanwhile: run this again'
    "$top/.ci/take" "$stamp" || fail "the program could not be copied to $top/build"
    say 'built'
}

top=$(dirname -- "$(readlink -f -- "$0")")
program=$top/build/oz
stamp=$("$top/.ci/stamp") || fail "the source files below $top cannot be read"
if [ ! -x "$program" ] || [ "$stamp" != "$(cat "$top/build/stamp" 2>/dev/null)" ]; then
    build
fi
exec "$program" "$@"
