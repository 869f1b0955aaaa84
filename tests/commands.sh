# What the tests of commands share: tests/bin, tests/tray and tests/archive read this file. They work in a folder of their own, `room`, which goes at
# the end. The repository is `root`.
room=$(mktemp -d)
trap 'rm -rf "$room"' EXIT
trap 'exit 1' HUP INT TERM
failed=0 passed=0

# result NAME STATUS: counts a test, and shows what was written where it failed
result() {
    if [ "$2" -eq 0 ]; then
        passed=$((passed + 1))
        echo "PASS $1"
    else
        failed=$((failed + 1))
        echo "FAIL $1"
        sed 's/^/    /' "$room/out" "$room/err"
    fi
}

# Keeps what a command writes, and its status. A command that hangs is ended after a minute.
keep() {
    timeout 60 "$@" >"$room/out" 2>"$room/err"
    status=$?
}

# is NAME STATUS EXPECTED: the run that was just kept ended with that status, and wrote exactly these lines to standard output
is() {
    printf '%s\n' "$3" >"$room/expected"
    [ "$status" -eq "$2" ] && cmp -s "$room/out" "$room/expected"
    result "$1" $?
}

# says NAME EXPECTED: it wrote exactly these lines to standard error
says() {
    printf '%s\n' "$2" >"$room/expected"
    cmp -s "$room/err" "$room/expected"
    result "$1" $?
}

# stops NAME WORD [STATUS]: it ended with status 2, or that one, wrote nothing to standard output, and one line with that word to standard error
stops() {
    [ "$status" -eq "${3:-2}" ] && [ ! -s "$room/out" ] && [ "$(wc -l <"$room/err")" -eq 1 ] && grep -q -e "$2" "$room/err"
    result "$1" $?
}

# reads_on PROGRAM ANSWER: the program itself, run as its command runs it, answers a megabyte with this line, and its writer sees no broken pipe
reads_on() {
    { head -c 1000000 /dev/zero; echo $? >"$room/writer"; } | (me=tests && . "$root/bin/prove.sh" && need_machine && run "$1") >"$room/out" 2>"$room/err"
    status=$?
    is "a megabyte straight into the program $1" 0 "$2"
    [ "$(cat "$room/writer")" = 0 ]
    result "the program $1 reads it to its end" $?
}

# The last line, and the status.
tell() {
    echo "$1: $passed passed, $failed failed"
    [ $failed -eq 0 ]
}
