# Sourced by the scripts beside it: `quietly COMMAND` shows what a command wrote only where it failed, which then ends the script. The
# text is in $log.
name=$1
log=$(mktemp)
trap 'rm -f "$log"' EXIT
quietly() {
    "$@" >"$log" 2>&1 || {
        cat "$log"
        echo "$name: failed at: $*"
        exit 1
    }
}
