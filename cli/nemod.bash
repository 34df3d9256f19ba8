# bash completion for nemod: commands, their options, types of resources, refusal numbers and files.

_nemod() {
    local word=${COMP_WORDS[COMP_CWORD]} last=${COMP_WORDS[COMP_CWORD - 1]} options words
    COMPREPLY=()
    case ${COMP_WORDS[1]} in
    check) options='--segments --json --refused -q --quiet -r --recursive --files-from -0 --null --work --all' ;;
    info) options='--json --all' ;;
    segment | resource) options='--json -o --output' ;;
    ordinal | module | explain) options='--json' ;;
    name) options='--number --json' ;;
    prepare) options='--selectors --answers -o --output --show' ;;
    esac
    if [ "$COMP_CWORD" = 1 ]; then
        words='check info list segment ordinal name module resource prepare explain help --help --version'
    elif [[ $word == -* ]]; then
        words="$options -h --help"
    else
        case ${COMP_WORDS[1]} in
        help) words='check info list segment ordinal name module resource prepare explain' ;;
        explain) words=$(nemod explain 2>/dev/null | awk '{ print $1 }') ;;
        resource)
            [ "$COMP_CWORD" -le 2 ] || [[ $last == -* ]] || words='cursor bitmap icon menu dialog string fontdir font
                accelerator rcdata group_cursor group_icon nametable version'
            ;;
        esac
    fi
    case $last in
    --work | --number | --selectors | --answers) ;;
    *) mapfile -t COMPREPLY < <(compgen -W "$words" -- "$word") ;;
    esac
}

# Where none of these fits, bash offers files.
complete -o default -F _nemod nemod
