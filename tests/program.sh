# What the tests of the programs have in common; sourced by them.
passed=0
failed=0

# Compares what a command printed with what it should print.
same() {
    if [[ $2 == "$3" ]]; then
        passed=$((passed + 1))
    else
        failed=$((failed + 1))
        printf '%s: printed\n%s\n' "$1" "$2"
    fi
}

# Standard input, a byte at a time.
drip() {
    local byte
    while IFS= read -r byte; do
        printf "\\x$byte"
        sleep 0.01
    done < <(od -An -v -tx1 -w1 | tr -d ' ')
}

# The output whole, with its line feeds, what is said beside it, and behind a mark the exit status.
whole() { "$@" 2>&1; echo ".$?"; }
