# Made by checks/operating/manual.py from the texts of --help.
_bulwynef() {
    local word="${COMP_WORDS[COMP_CWORD]}" before="${COMP_WORDS[COMP_CWORD-1]}"
    COMPREPLY=()
    if [ "$COMP_CWORD" -eq 1 ]; then
        COMPREPLY=($(compgen -W "status merge prove check explain bundle split show play" -- "$word"))
        return
    fi
    case "${COMP_WORDS[1]} $before" in
    "status --program")
        COMPREPLY=($(compgen -W "tally relay mailbox" -- "$word"))
        return ;;
    "merge --program")
        COMPREPLY=($(compgen -W "tally relay mailbox" -- "$word"))
        return ;;
    "prove --program")
        COMPREPLY=($(compgen -W "tally relay mailbox" -- "$word"))
        return ;;
    "check --program")
        COMPREPLY=($(compgen -W "tally relay mailbox" -- "$word"))
        return ;;
    "explain --program")
        COMPREPLY=($(compgen -W "tally relay mailbox" -- "$word"))
        return ;;
    "bundle --program")
        COMPREPLY=($(compgen -W "tally relay mailbox" -- "$word"))
        return ;;
    "play --program")
        COMPREPLY=($(compgen -W "tally relay mailbox" -- "$word"))
        return ;;
    esac
    case "${COMP_WORDS[1]} $word" in
    "status -"*)
        COMPREPLY=($(compgen -W "--directory --program --most --json --part --workers --help" -- "$word")) ;;
    "merge -"*)
        COMPREPLY=($(compgen -W "--directory --program --most --workers --output --help" -- "$word")) ;;
    "prove -"*)
        COMPREPLY=($(compgen -W "--directory --program --most --workers --output --help" -- "$word")) ;;
    "check -"*)
        COMPREPLY=($(compgen -W "--directory --program --most --json --help" -- "$word")) ;;
    "explain -"*)
        COMPREPLY=($(compgen -W "--directory --program --most --workers --proof --html --output --help" -- "$word")) ;;
    "bundle -"*)
        COMPREPLY=($(compgen -W "--directory --program --most --output --help" -- "$word")) ;;
    "split -"*)
        COMPREPLY=($(compgen -W "--parts --extract --directory --output --most --help" -- "$word")) ;;
    "show -"*)
        COMPREPLY=($(compgen -W "--json --most --help" -- "$word")) ;;
    "play -"*)
        COMPREPLY=($(compgen -W "--output --program --workers --most --help" -- "$word")) ;;
    esac
}
complete -o default -F _bulwynef bulwynef
