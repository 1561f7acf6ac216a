# Completion of roombox in bash: `source docs/roombox.bash`. Made by docs/tables/man_page.py from the help of roombox.

_roombox() {
    local word=${COMP_WORDS[COMP_CWORD]} options="serve keep meetings adapt agenda check expand explain box --adapt --zones --help --version" at
    for ((at = 1; at < COMP_CWORD; at++)); do
        case ${COMP_WORDS[at]} in
        serve | keep | meetings | adapt | agenda | check | expand | explain | box) break ;;
        esac
    done
    COMPREPLY=()
    if ((at < COMP_CWORD)); then
        # behind a command a word that begins no option is the name of a file, or not known
        [[ $word == -* ]] || return
    fi
    case ${COMP_WORDS[at]} in
    serve) options="--report --adapt --zones --help" ;;
    keep) options="--certificate --adapt --zones --help" ;;
    meetings) options="--adapt --zones --help" ;;
    adapt) options="--zones --report --reply-to --single --help" ;;
    agenda) options="--from --until --zone --free --ics --html --help" ;;
    check) options="--help" ;;
    expand) options="--limit --zone --help" ;;
    explain) options="--help" ;;
    box) options="--report --compare --adapt --zones --help" ;;
    esac
    mapfile -t COMPREPLY < <(compgen -W "$options" -- "$word")
}

complete -o default -F _roombox roombox
