# What the script `ds2` reads to explain a refusal: run_explained runs a command, lets its log through, and explains behind it.
#
#   run_explained PROGRAM EXPLAIN WORDS..
#
# runs `PROGRAM WORDS..` and ends the script with its status. EXPLAIN is the path of explain.sh, which is called with the status and the last
# line of the log and prints to standard error. The log goes to standard output byte for byte, and one that cannot be printed is status 9, as
# where the program prints it itself. Where there is no place for the pipes the program runs alone.

run_explained() {
    program=$1
    explain=$2
    shift 2
    pipes=
    if (: >&1) 2>/dev/null && command -v tee >/dev/null 2>&1 && command -v tail >/dev/null 2>&1; then
        pipes=$(mktemp -d 2>/dev/null) || pipes=
    fi
    if [ -z "$pipes" ] || ! mkfifo "$pipes/log" "$pipes/copy" 2>/dev/null; then
        [ -z "$pipes" ] || rm -rf "$pipes"
        exec "$program" "$@"
    fi
    # The last line alone is kept, so that a long log takes no room.
    tail -n 1 <"$pipes/copy" >"$pipes/last" 2>/dev/null &
    keeper=$!
    tee "$pipes/copy" <"$pipes/log" 2>/dev/null &
    printer=$!
    "$program" "$@" >"$pipes/log" &
    runner=$!
    trap 'stop_explained HUP' HUP
    trap 'stop_explained INT' INT
    trap 'stop_explained TERM' TERM
    wait "$runner"
    status=$?
    wait "$printer" || [ "$status" -ne 0 ] || status=9
    wait "$keeper"
    trap - HUP INT TERM
    last=$(tr -d '\000' <"$pipes/last")
    rm -rf "$pipes"
    if [ "$status" -ne 0 ] && [ -r "$explain" ]; then
        sh "$explain" "$program" "$status" "$last" "$@" >&2 </dev/null
    fi
    exit "$status"
}

# Ends the program by the signal that has come, and then this script.
stop_explained() {
    trap - HUP INT TERM
    kill -TERM "$runner" 2>/dev/null
    wait "$runner" "$printer" "$keeper" 2>/dev/null
    rm -rf "$pipes"
    kill -"$1" "$$"
}
