# Completion of bash for fedq, fedq-shell, fedq-setup and fedq-gateway: their arguments, and files after NAME=, --init, --out and --check.

_fedq() {
    local current=${COMP_WORDS[COMP_CWORD]} before=${COMP_WORDS[COMP_CWORD - 1]} words
    COMPREPLY=()
    # (`=` is a word of its own, unless COMP_WORDBREAKS was changed)
    if [[ $current == = ]]; then
        current= before='='
    elif [[ $current == *=* && $current != -* ]]; then
        mapfile -t COMPREPLY < <(compgen -f -- "${current#*=}" | sed "s|^|${current%%=*}=|")
        return
    fi
    case $before in
        = | --init | --out | --copy | --file | -f | --output | --save | --socket | --users | --cert | --key) mapfile -t COMPREPLY < <(compgen -f -- "$current"); return ;;
        --check) mapfile -t COMPREPLY < <(compgen -W 'csv jsonl sqlite' -- "$current"); return ;;
        --format) mapfile -t COMPREPLY < <(compgen -W 'aligned csv json jsonl tsv markdown' -- "$current"); return ;;
        -o) mapfile -t COMPREPLY < <(compgen -W 'aligned csv json jsonl tsv markdown' -- "$current"; compgen -f -- "$current"); return ;;
        --csv | --jsonl | --sqlite | --list | --owner | --port | --count | --columns | --null | --members | --host | --add-user | --lines-port | --spool-bytes) return ;;
    esac
    case ${COMP_WORDS[0]##*/} in
        fedq-setup) words='--csv --jsonl --sqlite --out --copy --write --write-acl --check --columns --header --null --members --help' ;;
        fedq-shell) words='--csv --jsonl --sqlite --list --init --owner --command --file --stop --user --connect --save --no-setup --format --expanded --null --output --version --help' ;;
        fedq-gateway) words='--port --host --socket --users --add-user --lines-port --lines-without-passwords --spool-bytes --cert --key --verbose --csv --jsonl --sqlite --list --init --owner --help' ;;
        *)
            case ${COMP_WORDS[1]} in
                run) words='--csv --jsonl --sqlite --list --init --owner --help' ;;
                serve) words='--port --count --csv --jsonl --sqlite --list --init --owner --help' ;;
                *) words='run serve help --help --version' ;;
            esac ;;
    esac
    mapfile -t COMPREPLY < <(compgen -W "$words" -- "$current")
}

complete -o filenames -F _fedq fedq fedq-shell fedq-setup fedq-gateway
