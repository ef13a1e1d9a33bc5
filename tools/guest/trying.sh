# shellcheck shell=bash
# Read by scripts that show that cases fail where something is wrong on purpose. The bridges that are wrong were built
# by tools/guest/wrong-bridges.
word=${1:-}
built=$(realpath ../../build/wrong)
tried=0
seen=0

# Runs a command that has a name. The lines that it has to tell come first, up to `--`, as extended regular expressions:
# what fails, and by what, and what the breaking leaves whole.
try_command() {
    local name=$1 told=() wanted=() missing=0 line
    [[ $name == *"$word"* ]] || return
    tried=$((tried + 1))
    shift
    while [ "$1" != -- ]; do
        wanted+=("$1")
        shift
    done
    shift
    echo "$name:"
    while IFS= read -r line; do
        printf '%.160s\n' "$line"
        told+=("$line")
    done < <("$@")
    for line in "${wanted[@]}"; do
        printf '%s\n' "${told[@]}" | grep -qE "^$line" || {
            echo "not seen: $line"
            missing=1
        }
    done
    [ "$missing" = 1 ] || seen=$((seen + 1))
}

# Runs cases with the bridge of a name. Behind `--` stand words of the cases' names; the command that runs cases stands
# in the list `runs`.
try() {
    local name=$1 wanted=() cases=() line
    while [ "$1" != -- ]; do
        wanted+=("$1")
        shift
    done
    shift
    for line in "$@"; do
        cases+=(--case "$line")
    done
    try_command "${wanted[@]}" -- "${runs[@]}" --built-bridge "$built/$name" "${cases[@]}"
}

# Says how many were seen; fails where one wasn't, or none was tried.
tell_seen() {
    echo "$seen of $tried were seen"
    [ "$tried" != 0 ] && [ "$seen" = "$tried" ]
}
