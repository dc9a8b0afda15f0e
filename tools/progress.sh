# For scripts that wait for the prover, to be read with `source`: one line on standard error that says how far it is, and a command that can be stopped.

minutes() { printf '%d:%02d' $(($1 / 60)) $(($1 % 60)); }

# Writes the line over the one before, on a terminal; elsewhere as a line of its own, every half minute.
shown=-30
line() {
    if [ -t 2 ]; then
        local width
        width=$(stty size <&2 2>/dev/null | cut -d' ' -f2) || width=
        case $width in '' | 0) width=80 ;; esac
        printf '\r%.*s\033[K' $((width - 1)) "$1" >&2
    elif [ $((SECONDS - shown)) -ge 30 ]; then
        shown=$SECONDS
        printf '%s\n' "$1" >&2
    fi
}

# Runs a command of the prover, what it prints kept in a file, and calls `progress` while it works, from its third second on. SECONDS begins anew.
# Only one such command works in a repository at a time. Stopped by the user, it and all that it started are stopped too.
watched() { # LOG COMMAND...
    local job log=$1 status=0
    shift
    if command -v flock >/dev/null; then
        exec 9>target/prove.lock
        flock -n 9 || { echo "Another command is proving here; waiting for it." >&2; flock 9; }
    fi
    SECONDS=0 shown=-30
    set -m
    "$@" >"$log" 2>&1 </dev/null 8>&- 9>&- &
    job=$!
    set +m
    trap 'kill -- -$job 2>/dev/null; [ ! -t 2 ] || echo >&2; echo "Stopped. What is proved so far is kept." >&2; exit 130' INT TERM HUP
    while kill -0 $job 2>/dev/null; do
        [ $SECONDS -lt 2 ] || progress
        sleep 0.2
    done
    wait $job || status=$?
    trap - INT TERM HUP
    exec 9>&-
    if [ -t 2 ]; then printf "\r\033[K" >&2; fi
    return $status
}
