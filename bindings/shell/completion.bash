# Completion of proved-argon2 for bash.
# shellcheck shell=bash

_proved_argon2() {
    local word=${COMP_WORDS[COMP_CWORD]} command=${COMP_WORDS[1]-} place=$COMP_CWORD words=
    if ((place == 1)); then
        words='new check tune hash verify rehash --help --version'
    else
        case $command:$place in
        new:2 | hash:2 | rehash:2) words='argon2id argon2i argon2d --help' ;;
        new:3 | hash:3 | rehash:3) words='19 16' ;;
        new:8 | hash:8) words='seq par max' ;;
        check:2) words='- --help' ;;
        tune:2 | verify:2) words='--help' ;;
        esac
    fi
    mapfile -t COMPREPLY < <(compgen -W "$words" -- "$word")
}

complete -F _proved_argon2 proved-argon2
