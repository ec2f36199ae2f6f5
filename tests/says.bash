# What the scripts that hold programs to what they must say share; sourced. `failed` is 1 once something was not as it should be.
failed=0

passed() {
    echo "passed: $1"
}

# wrong NAME WHY
wrong() {
    echo "FAILED: $1: ${2:0:600}"
    failed=1
}

# says NAME WANTED COMMAND..: the command passes, and its output has the wanted line
says() {
    local name=$1 wanted=$2 got
    shift 2
    if got=$("$@" 2>&1) && grep -q -x -F -e "$wanted" <<<"$got"; then passed "$name"; else wrong "$name" "'$wanted' was wanted, and it said: $got"; fi
}

# refuses STATUS NAME WANTED COMMAND..: the command ends with that status, and with the wanted words on standard error
refuses() {
    local status=$1 name=$2 wanted=$3 got ended=0
    shift 3
    got=$("$@" 2>&1 >/dev/null | tr -d '\0'; exit "${PIPESTATUS[0]}") || ended=$?
    if [ $ended -eq "$status" ] && grep -q -F -e "$wanted" <<<"$got"; then
        passed "$name"
    else
        wrong "$name" "status $status with '$wanted' was wanted, and it ended with $ended and said: $got"
    fi
}

# holds NAME COMMAND..: the command passes
holds() {
    local name=$1 got
    shift
    if got=$("$@" 2>&1 | tr -d '\0'; exit "${PIPESTATUS[0]}"); then passed "$name"; else wrong "$name" "$got"; fi
}
