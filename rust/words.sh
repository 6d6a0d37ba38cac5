# Sourced by compare, speed and stack: looks at their words before anything is proved or built. The script has set $usage, $flags (the
# options that stand alone) and $numbers (those that a number follows).
refuse() {
    echo "rust/${0##*/}: $*; --help shows the usage" >&2
    exit 2
}

is_one_of() { # WORD WORDS
    case $1 in '' | *' '*) return 1 ;; esac
    case " $2 " in *" $1 "*) ;; *) return 1 ;; esac
}

look_at() { # WORD..
    while [ $# -gt 0 ]; do
        if is_one_of "$1" '--help -h'; then
            echo "$usage"
            exit
        elif is_one_of "$1" "$flags"; then
            shift
        elif is_one_of "$1" "$numbers"; then
            case ${2-} in '' | *[!0-9]* | ???????????????????*) refuse "$1 takes a number of at most 18 digits" ;; esac
            shift 2
        else
            refuse "there is no option '$1'"
        fi
    done
}
