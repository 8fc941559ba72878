# shellcheck shell=bash
# Completion of vault's words in bash: the commands, the options of each, and folders where a folder is wanted.
#
# Usage: source examples/completion/vault.bash, from a shell or from its start-up file; or put a copy named `vault` among the
# completions of the package bash-completion. scripts/man.py --check tells where the options aren't those of the program.

_vault() {
    local word=${COMP_WORDS[COMP_CWORD]} options="" folder="" place=1 at
    COMPREPLY=()
    if [ "$COMP_CWORD" -eq 1 ]; then
        mapfile -t COMPREPLY < <(compgen -W "backup check forget frames init locks loop play prune refresh restore serve snapshots unlock upgrade --help --version" -- "$word")
        return
    fi
    case ${COMP_WORDS[1]} in
        frames) options="" ;;
        play) options="" ;;
        loop) options="" ;;
        init) options="--min --max --bits --target --format" folder=1 ;;
        serve) options="--connections --at-once --memory --idle --append-only" folder=1 ;;
        backup) options="--idle --retry" folder=3 ;;
        snapshots) options="--idle --retry" ;;
        restore) options="--idle --retry" folder=3 ;;
        forget) options="--idle --retry --keep-last --keep-daily --host --dry-run" ;;
        prune) options="--idle --retry" ;;
        check) options="--idle --retry" ;;
        upgrade) options="--idle --retry" ;;
        locks) options="--idle" ;;
        refresh) options="--idle" ;;
        unlock) options="--idle --remove-all" ;;
        *) return ;;
    esac
    # At which place this word stands among those that are no options. A word goes on behind a colon, at which bash parts it.
    for ((at = 2; at < COMP_CWORD; at++)); do
        case ${COMP_WORDS[at]} in
            --append-only | --dry-run | --remove-all | --help) ;;
            --* | :*) at=$((at + 1)) ;;
            *) place=$((place + 1)) ;;
        esac
    done
    [ "$at" -eq "$COMP_CWORD" ] || return
    if [[ $word == -* ]]; then
        mapfile -t COMPREPLY < <(compgen -W "$options --help" -- "$word")
    elif [ "$place" = "$folder" ]; then
        compopt -o filenames 2>/dev/null
        mapfile -t COMPREPLY < <(compgen -d -- "$word")
    fi
}
complete -F _vault vault
