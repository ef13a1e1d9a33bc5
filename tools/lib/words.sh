# shellcheck shell=bash
# Read by scripts in bash: what they do with words that ask for help, and with words that they have no use for.

# Ends a script that has no use for its words, and says why.
refuse_words() {
    echo "$0: $1; \`$0 --help\` says which words it takes" >&2
    exit 2
}

# Looks at a script's words, of which there may be as few and as many as the first two say: for `-h` or `--help` among
# them prints its opening comment, which says how it is used, and ends; for `--version` tells which program is built, and
# ends; refuses another word that begins with `-`.
look_at_words() {
    local least=$1 most=$2 word
    shift 2
    for word in "$@"; do
        case $word in
        -h | --help)
            sed -n '2,/^[^#]/s/^# \{0,1\}//p' "$0"
            exit 0
            ;;
        --version) exec python3 "$(dirname "${BASH_SOURCE[0]}")/version.py" ;;
        -*) refuse_words "there is no word $word" ;;
        esac
    done
    [ $# -ge "$least" ] || refuse_words 'a word is missing'
    [ $# -le "$most" ] || refuse_words 'there are too many words'
}
