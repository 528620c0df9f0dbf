# Completions of swd for bash, written by checks/help: `. completions/swd.bash` in a shell, or for each one a copy at
# ~/.local/share/bash-completion/completions/swd.
_swd() {
    local word=${COMP_WORDS[COMP_CWORD]} before=${COMP_WORDS[COMP_CWORD - 1]} words= formats=
    local earlier=${COMP_WORDS[COMP_CWORD > 1 ? COMP_CWORD - 2 : 0]}
    # Of --OPTION=VALUE the sign is a word of its own. Behind the sign alone the value is empty.
    if [[ $word == = ]]; then
        word=
    elif [[ $before == = && $word ]]; then
        before=$earlier earlier=
    elif [[ $earlier == = ]]; then
        earlier=${COMP_WORDS[COMP_CWORD - 3]}
    fi
    COMPREPLY=()
    if ((COMP_CWORD == 1)); then
        case $word in
        -*) words='--help --version -h -V' ;;
        *) words='one decode encode run target probe draw check info core conform load verify dump probes help' ;;
        esac
        COMPREPLY=($(compgen -W "$words" -- "$word"))
        return
    fi
    case ${COMP_WORDS[1]} in
    help)
        ((COMP_CWORD > 2)) || COMPREPLY=($(compgen -W 'one decode encode run target probe draw check info core conform load verify dump probes help' -- "$word"))
        return
        ;;
    one)
        words='--help -h'
        ;;
    decode)
        words='--places --names --count --accesses --made --rest --resync --overrun --help -h'
        ;;
    encode)
        words='--help -h'
        ;;
    run)
        words='--plan --tries --resume --trace --accesses --strict --remote --probe --speed --framed --report --progress --check --bursts --help -h'
        ;;
    target)
        words='--memory --base --plan --log --trace --idr --buffer --help -h'
        ;;
    probe)
        words='--memory --base --plan --log --trace --idr --buffer --size --help -h'
        ;;
    draw)
        words='--items --names --resync --overrun --help -h'
        ;;
    check)
        words='--made --rest --clean --plain --exact-registers --resync --overrun --help -h'
        ;;
    info)
        words='--remote --probe --speed --framed --tries --help -h'
        ;;
    core)
        words='--halt --script --tries --resume --trace --remote --probe --speed --framed --help -h'
        ;;
    conform)
        words='--remote --probe --speed --framed --plain --hole --steps --clean --help -h'
        ;;
    load)
        words='--format --tries --resume --report --progress --remote --probe --speed --framed --check --memory --base --plan --bursts --help -h'
        formats='bin hex srec elf'
        ;;
    verify)
        words='--format --tries --resume --report --progress --remote --probe --speed --framed --check --memory --base --plan --help -h'
        formats='bin hex srec elf'
        ;;
    dump)
        words='--format --tries --resume --report --progress --remote --probe --speed --framed --check --memory --base --plan --help -h'
        formats='bin hex srec'
        ;;
    probes)
        words='--help -h'
        ;;
    esac
    case $earlier in
    --plain)
        return
        ;;
    esac
    case $before in
    --accesses | --log | --memory | --plan | --probe | --report | --steps | --trace)
        mapfile -t COMPREPLY < <(compgen -f -- "$word")
        return
        ;;
    --base | --hole | --idr | --items | --resume | --size | --speed | --tries | --plain)
        return
        ;;
    --format)
        COMPREPLY=($(compgen -W "$formats" -- "$word"))
        return
        ;;
    esac
    case $word in
    -*) COMPREPLY=($(compgen -W "$words" -- "$word")) ;;
    *) mapfile -t COMPREPLY < <(compgen -f -- "$word") ;;
    esac
}
complete -o filenames -F _swd swd ./swd
