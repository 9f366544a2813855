# Runs parts of a gate and sums what they count. To be sourced.
passed=0 failed=0 skipped=0 faults=

# tally NAME COMMAND ..: runs the command, shows what it says, and adds what its last line counts, as in
# '3 passed, 0 failed, 1 skipped'. A command without such a line counts as one, by its status.
tally() {
    local name=$1 said status=0 line
    shift
    said=$(mktemp)
    echo "== $name"
    "$@" 2>&1 | tee "$said" || status=$?
    line=$(grep -E '^[0-9]+ passed, [0-9]+ failed' "$said" | tail -n 1) || true
    ((status == 0)) || faults+="== $name failed"$'\n'$(tell_faults "$said")$'\n'
    rm "$said"
    if [[ $line =~ ^([0-9]+)\ passed,\ ([0-9]+)\ failed(,\ ([0-9]+)\ skipped)?$ ]]; then
        ((passed += BASH_REMATCH[1], failed += BASH_REMATCH[2], skipped += ${BASH_REMATCH[4]:-0})) || true
        ((status == 0 || BASH_REMATCH[2] > 0 || ++failed))
    else
        ((status == 0 ? ++passed : ++failed))
    fi
    return "$status"
}

# The lines of a log that name what failed, or its last ones where none does.
tell_faults() {
    grep -E 'FAILED|NOT REFUSED|BAD EDIT|: no proof' "$1" | awk '!seen[$0]++ && ++lines <= 40' || tail -n 15 "$1"
}

# Prints what failed again, since a long log may be seen by its end alone, then the sum as the last line, and
# ends with status 1 where anything failed.
tell_tally() {
    local more=
    printf %s "$faults"
    ((skipped == 0)) || more=", $skipped skipped"
    echo "$passed passed, $failed failed$more"
    exit $((failed > 0))
}
