# What examples/check, bin/check and oracle/check have in common: a folder for what they write, and the count. They source it.
# shellcheck shell=bash
set -u
export LC_ALL=C
room=$(mktemp -d)
trap 'rm -rf "$room"' EXIT
ok=0 failed=0 skipped=0

# same NAME WANTED GOT: two files, which may be pipes
same() {
    cat "$2" >"$room/.wanted"
    cat "$3" >"$room/.got"
    if cmp -s "$room/.wanted" "$room/.got"; then
        ok=$((ok + 1))
    else
        failed=$((failed + 1))
        printf 'FAILED %s\n' "$1"
        diff <(cut -c1-100 "$room/.wanted") <(cut -c1-100 "$room/.got") | head -n 6
    fi
}

# equal NAME WANTED GOT: two texts
equal() { same "$1" <(printf '%s\n' "$2") <(printf '%s\n' "$3"); }

# skip NAME WHY
skip() {
    skipped=$((skipped + 1))
    printf '%s: not run here: %s\n' "$1" "$2"
}

# pieces KIND BODY COUNT: so many pieces of zeros, their kind in octal and the length of their body
pieces() {
    # shellcheck disable=SC2046,SC2059
    printf "\\$1$(printf "%0$2d" 0)%.0s" $(seq "$3") | tr 0 '\0'
}

# The last line, and the exit status.
total() {
    printf '%s ok, %s failed' "$ok" "$failed"
    [ "$skipped" = 0 ] || printf ', %s not run here' "$skipped"
    echo
    [ "$failed" = 0 ]
}
