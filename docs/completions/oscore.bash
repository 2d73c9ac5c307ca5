# Completions of oscore for bash: source this file.

# The words that can stand at the cursor: of an option its values, else the options that can still be given.
_oscore() {
    local word=${COMP_WORDS[COMP_CWORD]} before=${COMP_WORDS[COMP_CWORD - 1]} call=${COMP_WORDS[1]}
    local words=() option

    # bash parts --name=value into three words.
    if [[ $word == "=" ]]; then
        word=
    elif [[ $before == "=" ]]; then
        before=${COMP_WORDS[COMP_CWORD - 2]}
    fi
    # All words but the one at the cursor, each between two spaces.
    local given=" ${COMP_WORDS[*]:0:COMP_CWORD} ${COMP_WORDS[*]:COMP_CWORD + 1} "

    COMPREPLY=()
    if ((COMP_CWORD == 1)); then
        mapfile -t COMPREPLY < <(compgen -W "derive open protect explain run help --help --version" -- "$word")
        return
    fi
    case $before in
        --role) words=(server client peer) ;;
        --window) words=(1 32 64) ;;
        --allow) words=(blocks observe) ;;
        --numbers | --record)
            compopt -o filenames 2>/dev/null
            mapfile -t COMPREPLY < <(compgen -f -- "$word")
            return
            ;;
        # A word of hex or a number.
        --secret | --salt | --sender | --recipient | --id-context | --sequence | --request | --life | --ahead) return ;;
    esac
    if ((${#words[@]})); then
        mapfile -t COMPREPLY < <(compgen -W "${words[*]}" -- "$word")
        return
    fi

    case $call in
        derive | open | protect | run) words=(--secret --salt --sender --recipient --id-context --allow --tables --help) ;;
        explain) words=(--help) ;;
        help) ((COMP_CWORD == 2)) && words=(derive open protect explain run) ;;
    esac
    case $call in
        open) words+=(--request --registers) ;;
        protect)
            words+=(--sequence)
            [[ $given == *" --proxy "* ]] || words+=(--request --registers)
            [[ $given == *" --"@(request|registers)" "* ]] || words+=(--proxy)
            ;;
        run)
            # A record is a peer's.
            local role=
            [[ $given == *" --record "* ]] && role=peer
            [[ $given =~ " --role "("= ")?(server|client|peer)" " ]] && role=${BASH_REMATCH[2]}
            words+=(--role --follow)
            [[ $role == peer || $given == *" --numbers "* ]] || words+=(--sequence)
            [[ $role == peer || $given == *" --"@(sequence|restarted)" "* ]] || words+=(--numbers)
            [[ $role == @(client|peer) || $given == *" --"@(life|numbers)" "* ]] || words+=(--restarted)
            [[ $role == client || $role != peer && $given == *" --life "* ]] || words+=(--window)
            [[ $role == server || $role != peer && $given == *" --"@(restarted|window)" "* ]] || words+=(--life)
            [[ $role == @(server|client) || $given == *" --"@(sequence|restarted|numbers)" "* ]] || words+=(--record)
            [[ $given == *" --record "* ]] && words+=(--first --ahead)
            ;;
    esac
    for option in $(compgen -W "${words[*]}" -- "$word"); do
        # --allow may be given for each thing that is allowed.
        [[ $option != --allow && $given == *" $option "* ]] || COMPREPLY+=("$option")
    done
}

complete -F _oscore oscore
