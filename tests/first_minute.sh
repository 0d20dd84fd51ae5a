#!/usr/bin/env bash
# The first minute on a fresh machine: tests/first_minute.sh [demo] [try] [serve] [test], as root; all of them where none is named.
#
# In a clean root of Debian 12 (dist/root) with bash, make, python3 and the kit that `rt` is of, read-only, and nothing else: no network, no
# further package, a user who isn't root, and a copy of what git knows of this tree, without anything built. There `make demo`, `make try`
# until its page answers and its city is filled, twice, `make serve` until it is ready, and `make test`. Prints what each printed and how
# long it took; what is left out has to be named with its packages. Nothing of it stays. Takes half an hour, by whatever else the machine
# does. The last line is 'N passed, M failed', and the status is 1 where one failed. Wants debootstrap, unshare and ip.
set -uo pipefail
cd "$(dirname "$0")/.." || exit
export LC_ALL=C

if [ "${1:-}" != --inside ]; then
    kit=$(realpath "$(command -v rt)" 2>/dev/null)
    if [ "$(id -u)" != 0 ] || [ -z "$kit" ] || ! { command -v debootstrap && command -v ip; } >/dev/null; then
        echo 'first_minute: root, rt on the PATH, debootstrap and ip are wanted' >&2
        echo '0 passed, 1 failed'
        exit 1
    fi
    kit=$(dirname "$(dirname "$kit")")
    work=$(mktemp -d)
    trap 'rm -rf --one-file-system "$work"' EXIT
    chmod 755 "$work"
    if ! dist/root "$work/root" bash,make,python3 >"$work/log" 2>&1; then
        tail -n 20 "$work/log"
        echo '0 passed, 1 failed'
        exit 1
    fi
    bash tests/copy "$work/root/srv/ruffletuff" .
    chown -R 1000:1000 "$work/root/srv/ruffletuff"
    unshare --mount --propagation private --pid --net --fork --kill-child tests/first_minute.sh --inside "$kit" "$work/root" "$@" |
        tee "$work/said"
    tail -n 1 "$work/said" | grep -Eqx '[0-9]+ passed, 0 failed' && exit 0
    # Where it was cut off, that has failed.
    tail -n 1 "$work/said" | grep -Eqx '[0-9]+ passed, [0-9]+ failed' || echo '0 passed, 1 failed'
    exit 1
fi

kit=$2 root=$3 passed=0 failed=0
shift 3
[ $# -gt 0 ] || set -- demo try serve test
ip link set lo up
mkdir -p "$root$kit"
mount --bind "$kit" "$root$kit" && mount -o remount,bind,ro "$root$kit"
mount -t proc proc "$root/proc"
mount --rbind /dev "$root/dev"
ln -s "$kit/bin/rt" "$root/usr/local/bin/rt"

# Whether what is said is what is wanted.
is() {
    if [ "$2" = "$3" ]; then
        passed=$((passed + 1))
    else
        failed=$((failed + 1))
        printf '%s:\n  wanted %s\n  said   %s\n' "$1" "$2" "$3"
    fi
}

# Runs make in the tree, as somebody who has just come.
run() {
    chroot --userspec=1000:1000 "$root" /usr/bin/env -i PATH=/usr/local/bin:/usr/bin:/bin HOME=/srv/ruffletuff LC_ALL=C.UTF-8 \
        make -C /srv/ruffletuff --no-print-directory "$@"
}

# The first line that a server's page answers with.
page() {
    {
        printf 'GET / HTTP/1.1\r\nhost: localhost\r\nconnection: close\r\n\r\n' >&3
        head -n 1 <&3 | tr -d '\r'
    } 2>/dev/null 3<>/dev/tcp/127.0.0.1/8090
}

# Whether a file has a line.
has() { grep -Eq "$2" "$1"; }
page_answers() { [ "$(page)" = 'HTTP/1.1 200 OK' ]; }

# Waits for at most so many seconds until a command says yes, as long as the process lives.
wait_for() {
    local until=$((SECONDS + $1)) process=$2
    shift 2
    until "$@"; do
        [ "$SECONDS" -lt "$until" ] && kill -0 "$process" 2>/dev/null || return 1
        sleep 0.2
    done
}

# The seconds since a moment, with what they were for.
took() { awk -v begun="$1" -v now="$EPOCHREALTIME" -v what="$2" 'BEGIN { printf "-- %s: %.1f s\n", what, now - begun }'; }

try_demo() {
    local begun=$EPOCHREALTIME
    run demo >"$root/tmp/demo" 2>&1
    is 'make demo ends with' 0 $?
    cat "$root/tmp/demo"
    took "$begun" 'make demo'
    is 'its first line tells how long' yes "$(head -n 1 "$root/tmp/demo" | grep -q ' in about ' && echo yes)"
    is 'its last line is a verdict' yes "$(tail -n 1 "$root/tmp/demo" | grep -q '^200 .*"status":"ok"' && echo yes)"
}

try_test() {
    local begun=$EPOCHREALTIME
    # shellcheck disable=SC2065
    run test >"$root/tmp/test" 2>&1
    is 'make test ends with' 0 $?
    head -n 2 "$root/tmp/test"
    grep -E '^== .*(, [1-9][0-9]* failed|skipped)' -A 20 "$root/tmp/test" | sed -n '/^==/p; /^   /p' | head -n 200
    tail -n 3 "$root/tmp/test"
    took "$begun" 'make test'
    is 'its last line' yes "$(tail -n 1 "$root/tmp/test" | grep -Eqx '[0-9]+ passed, 0 failed, [0-9]+ skipped' && echo yes)"
    is 'the last but one names packages' yes \
        "$(tail -n 2 "$root/tmp/test" | head -n 1 | grep -Eq '^left out: .*: apt-get install ' && echo yes)"
}

try_try() {
    local begun process
    for time in 'make try, the first time' 'make try, again'; do
        begun=$EPOCHREALTIME
        run try >"$root/tmp/try" 2>&1 &
        process=$!
        is "$time: its page" yes "$(wait_for 3600 "$process" page_answers && echo yes)"
        took "$begun" "$time, until its page answers"
        is "$time: its city" yes "$(wait_for 600 "$process" has "$root/tmp/try" '^Ctrl-C ends it' && echo yes)"
        cat "$root/tmp/try"
        took "$begun" "$time, until its city is filled"
        end "$process"
    done
}

try_serve() {
    local begun=$EPOCHREALTIME process
    run serve >"$root/tmp/serve" 2>&1 &
    process=$!
    is 'make serve: it is ready' yes "$(wait_for 3600 "$process" has "$root/tmp/serve" '^ready$' && echo yes)"
    cut -c 1-120 "$root/tmp/serve"
    took "$begun" 'make serve, until it is ready'
    end "$process"
}

# The numbers of a process and of all that it has started, as the root's /proc has them: the outer one has other numbers.
all_of() {
    local child
    echo "$1"
    for child in $(cat "$root/proc/$1"/task/*/children 2>/dev/null); do
        all_of "$child"
    done
}

# Ends make and what it runs, each by its number, and waits until none of them is there, nor what they listened at.
end() {
    local all process
    all=$(all_of "$1")
    # shellcheck disable=SC2086
    kill $all 2>/dev/null
    wait "$1" 2>/dev/null
    for process in $all; do
        for _ in $(seq 100); do
            kill -0 "$process" 2>/dev/null || continue 2
            sleep 0.1
        done
        echo "process $process doesn't end"
    done
}

du -sh --apparent-size "$kit" | awk '{ print "the kit has " $1 }'
run help >/dev/null || is 'make help' 0 1
for it in "$@"; do
    "try_$it"
done
echo "$passed passed, $failed failed"
exit $((failed > 0))
