# Completion of mcf, mcfcheck, mcfplan, mcf_plan, mcf_explain and mcf_one for bash: source it, or put it where bash-completion looks. Where it has nothing to
# say, names of files come. _mcf has the same words for zsh; python/tests/test_completion.py compares both with what the commands say themselves.

# What may come after an option of a command.
_mcf_values()
{
    case $1:$2 in
        *:--engine) echo auto cancel simplex scaling fast sap ;;
        *:--pricing) echo first best block wide ;;
        *:--form) echo full sparse 1 2 ;;
        mcfplan:--unused | mcfplan:--short) echo refuse allow ;;
        *:--unused | *:--short) echo allow refuse ;;
        mcfplan:--each) echo auto who what both ;;
        *:--each) echo who what both ;;
        mcf_plan:--crossing) echo check refuse ;;
        mcfplan:--maximise | mcfplan:--ranges) echo no yes ;;
        mcfplan:--crossing) echo refuse check ;;
        mcfplan:--decimal) echo auto . , ;;
        *:--decimal) echo , . ;;
    esac
}

# The options of a command, or of one of its subcommands.
_mcf_options()
{
    local solve="--engine --pricing --block --form"
    local plan="-o --output --programs --decimal --encoding --map --fill-down --xlsx --title --currency --unit --by --guard-formulas"
    case $1:$2 in
        mcf:solve) echo -h --help "$solve" ;;
        mcf:*) echo -h --help -V --version ;;
        mcfplan:flow) echo -h --help --decimal --unused --short --penalty --ranges --fill-down ;;
        mcfplan:pairs) echo -h --help --decimal --each --maximise --groups --crossing --fill-down ;;
        mcfplan:*) echo -h --help -V --version ;;
        mcf_one:*) echo "$solve" ;;
        mcf_plan:flow) echo -h --help "$plan" --unused --short --most-flow --penalty --ranges --no-picture ;;
        mcf_plan:pairs) echo -h --help "$plan" --groups --crossing --each --maximise --maximize ;;
        mcf_plan:diff) echo -h --help --all ;;
        mcf_plan:compare) echo -h --help -o --output ;;
        mcf_plan:verify) echo -h --help --programs ;;
        mcf_plan:*) echo -h --help ;;
        mcf_explain:*) echo -h --help --programs ;;
    esac
}

# The subcommands of a command.
_mcf_subcommands()
{
    case $1 in
        mcf) echo solve help ;;
        mcfplan) echo flow pairs help ;;
        mcf_plan) echo flow pairs diff compare verify ;;
    esac
}

_mcf()
{
    local command=${1##*/} word=${COMP_WORDS[COMP_CWORD]} before=${COMP_WORDS[COMP_CWORD - 1]} words
    # Bash takes --engine=sap for three words.
    if [ "$word" = "=" ]; then
        word=
    elif [ "$before" = "=" ]; then
        before=${COMP_WORDS[COMP_CWORD - 2]}
    fi
    words=$(_mcf_values "$command" "$before")
    if [ -z "$words" ]; then
        case $COMP_CWORD:$word in
            1:-*) words=$(_mcf_options "$command") ;;
            1:*) words=$(_mcf_subcommands "$command") ;;
            *:-*) words=$(_mcf_options "$command" "${COMP_WORDS[1]}") ;;
        esac
    fi
    # A here-string, since < <(..) needs /dev/fd, which a bare root has only if /proc is mounted.
    words=$(compgen -W "$words" -- "$word")
    COMPREPLY=()
    if [ -n "$words" ]; then
        mapfile -t COMPREPLY <<< "$words"
    fi
}

complete -o bashdefault -o default -F _mcf mcf mcfcheck mcfplan mcf_plan mcf_explain mcf_one
