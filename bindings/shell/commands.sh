# What the script `argon2` of the repository and the installed `proved-argon2` do around the program argon2_tool. Both
# read this file, set the following variables and then call `main "$@"`:
#
#     name        what the user calls it
#     version     the version
#     help        the file help.txt, in which NAME is replaced by that name
#     prepare     a function that makes the program ready and sets `program` to its file, and `is_known` if the program
#                 is known to load on this system
#
# `--help`, `--version` and `tune` are done here. All else is passed on, with the standard streams, and the program says
# which argument is wrong. `new` also gets a random salt, and OWASP's settings if it has none. On a terminal, the script
# asks for a password without echo.
# shellcheck shell=sh disable=SC2154

newline='
'

# OWASP's settings for passwords, as `help.txt` explains them.
owasp_settings='argon2id 19 2 19456 1 32 seq'

# The memory that `tune` measures first if none is named, in KiB: RFC 9106's second recommendation.
tuned_memory=65536

# OWASP's least memory in KiB: a hash with less does not protect a password well.
least_memory=7168

# Where Linux says how many programs have run at once in the last minute.
loads=/proc/loadavg

# Makes the program's C library request huge pages, unless the user has set GLIBC_TUNABLES.
tunables=glibc.malloc.hugetlb=1

# The oldest C library with which the programs can be loaded.
least_glibc=2.34

# How many bytes of a line a terminal gives at most. It drops the rest silently.
terminal_line=4095

# How much input `new` reads at most: one byte more than the longest password that it takes.
most_read=65537

main() {
    if asks_for_help "$@"; then
        show_help || exit 4
        return
    fi
    case $#:${1-} in
    1:--version | 1:-V) printf 'proved-argon2 %s\n' "$version" || exit 4 ;;
    *:new) shift && new_text "$@" ;;
    *:tune) shift && tune "$@" ;;
    2:check) if [ "$2" = - ]; then check_described; else run "$@"; fi ;;
    *) run "$@" ;;
    esac
}

# `--help`, alone or behind one of the commands.
asks_for_help() {
    case $#:${1-} in
    1:--help | 1:-h | 1:help) return ;;
    2:new | 2:check | 2:tune | 2:hash | 2:verify | 2:rehash) [ "$2" = --help ] || [ "$2" = -h ] ;;
    *) return 1 ;;
    esac
}

show_help() {
    sed "s|NAME|$name|g" "$help"
}

# Adds a line on standard error: `add LINE`.
add() {
    printf '%s: %s\n' "$name" "$1" >&2
}

# Ends with a line on standard error: `fail STATUS LINE`.
fail() {
    add "$2"
    exit "$1"
}

# Runs the program in place of this shell, so that signals reach it. On a terminal a password is typed.
run() {
    make_ready
    if [ -t 0 ]; then
        judge "$@"
        ask 'Password: '
        printf '%s' "$answer" | "$program" "$@"
        exit
    fi
    exec "$program" "$@"
}

# Ends unless the program tries to read the password: its input here is a folder, so with right arguments it fails with
# `input`.
judge() {
    { said=$("$program" "$@" </ 2>&1 >&3 3>&-); } 3>&1
    status=$?
    [ "$status:$said" != 4:input ] || return 0
    [ -z "$said" ] || printf '%s\n' "$said" >&2
    exit "$status"
}

# Makes the program ready. Exits if there is none, or if it cannot be loaded here.
make_ready() {
    is_known=
    prepare || exit 70
    [ "$is_known" ] || require_loader
    GLIBC_TUNABLES=${GLIBC_TUNABLES-$tunables}
    export GLIBC_TUNABLES
}

# Ends if the program cannot be loaded: then the loader names a version that the system's C library lacks, or the shell
# says that the loader is missing.
require_loader() {
    loaded=$(LD_TRACE_LOADED_OBJECTS=1 "$program" 2>&1 </dev/null)
    case $?:$loaded in
    126:* | 127:* | *'not found'*)
        fail 70 "the programs need glibc $least_glibc or newer, which this system does not have"
        ;;
    esac
}

# ---- passwords

# Reads a line from the terminal into `answer`, without echo: `ask PROMPT`. If a signal ends it, the echo is
# switched on again. It cannot be suspended while there is no echo.
ask() {
    terminal=$(stty -g) || fail 4 'the terminal cannot be asked for its settings'
    for signal in HUP INT QUIT TERM; do
        # The variables are expanded now, and not when the signal comes.
        # shellcheck disable=SC2064
        trap "stty '$terminal'; trap - $signal; kill -$signal $$" "$signal"
    done
    trap '' TSTP
    stty -echo || fail 4 'the echo cannot be switched off'
    printf '%s' "$1" >&2
    IFS= read -r answer
    status=$?
    stty "$terminal"
    trap - HUP INT QUIT TERM TSTP
    printf '\n' >&2
    [ "$status" = 0 ] || fail 4 'no password was typed'
    [ "$(printf '%s' "$answer" | wc -c)" -lt "$terminal_line" ] \
        || fail 4 'the password is too long for a terminal: pass it by a pipe'
}

# 16 random bytes of the system, in hexadecimal.
new_salt() {
    salt=$(od -An -v -tx1 -N16 /dev/urandom | tr -dc 0123456789abcdef)
    [ "${#salt}" = 32 ] || fail 4 'there are no random bytes'
}

# Passes standard input on, and warns on standard error if it ends with a newline, which `echo` adds. A line on
# descriptor 5, before any output of the tool, begins with `!whole` only if all of the input was passed on, so that
# nobody keeps a hash of nothing or of a part. A shell that is denied a process exits at once, and prints no such line.
watch_input() {
    { pass_on 3>&1 | tell_of_end; } 4>&1 && echo '!whole' >&5
}

# Passes to descriptors 3 and 4 as much of standard input as the tool reads. A signal ends `head` and `tee` if the tool
# stops reading: then it has failed, and says so itself. Where /proc is not mounted, no program can open descriptor 3,
# so the shell writes the input twice. It keeps it in octal, since a variable cannot contain the byte 0.
pass_on() {
    if [ -e /dev/fd/3 ]; then
        read_input | tee /dev/fd/3 >&4 2>/dev/null || echo '!unread' >&5
    else
        octal=$(read_input | od -An -v -to1 | sed 's/ /\\0/g' | tr -d '\n')
        { printf %b "$octal" >&4 && printf %b "$octal" >&3; } 2>/dev/null || echo '!unread' >&5
    fi
}

read_input() {
    head -c "$most_read" 2>/dev/null || echo '!unread' >&5
}

tell_of_end() {
    case $(tail -c 1 | od -An -tx1) in
    '') echo '!empty' >&5 ;;
    ' 0a') add 'the password ends with a newline, as echo adds one: use printf' ;;
    esac
}

# Prints the encoded hash of a password: `new_text SETTING..`. The password is typed twice, or it is all of standard
# input where that is no terminal. An empty one comes from a command that failed, as in `failing | proved-argon2 new`,
# and would let in anyone who types nothing.
new_text() {
    make_ready
    new_salt
    # The settings are arguments, to be split.
    # shellcheck disable=SC2086
    [ $# != 0 ] || set -- $owasp_settings
    if [ -t 0 ]; then
        judge new "$@" "$salt"
        ask 'Password: '
        password=$answer
        ask 'Password again: '
        [ "$password" = "$answer" ] || fail 1 'the two passwords are not the same'
        [ -n "$password" ] || fail 2 'the password is empty'
        lines=$(printf '%s' "$password" | "$program" new "$@" "$salt") || exit
    else
        (: 6<&0) 2>/dev/null || fail 4 'there is no input'
        lines=$({ watch_input | "$program" new "$@" "$salt" 5>&-; } 5>&1) || exit
        case $lines in
        '!whole'*) ;;
        '!empty'*) fail 2 'the password is empty' ;;
        *) fail 4 'the input cannot be read' ;;
        esac
    fi
    printf '%s\n' "${lines##*"$newline"}" || exit 4
}

# `check` of an encoded hash that is the first line of descriptor 3: `check - 3<FILE`.
check_described() {
    described=
    { IFS= read -r described <&3; } 2>/dev/null || [ -n "$described" ] \
        || fail 4 'check -: there is no encoded hash on descriptor 3, as in 3<FILE'
    exec 3<&-
    run check "$described"
}

# ---- tuning

# Whether an argument is a positive number of at most nine digits, without a zero in front.
is_number() {
    case $1 in
    '' | 0* | *[!0-9]* | ??????????*) return 1 ;;
    esac
}

# Warns if other programs may have disturbed the measurement.
tell_of_load() {
    processors=$(getconf _NPROCESSORS_ONLN) && { read -r load _ <"$loads"; } 2>/dev/null || return 0
    [ "${load%%.*}" -lt "$processors" ] || add "tune: the load is $load on $processors processors: without other \
programs a hash takes less time than was measured"
}

# Prints strong settings whose hash took at most MILLISECONDS, within KIB: `tune MILLISECONDS [KIB]`. The program prints
# the passes, the memory and the time.
tune() {
    [ $# != 1 ] || set -- "$1" "$tuned_memory"
    { [ $# = 2 ] && is_number "$1" && is_number "$2"; } || {
        printf 'usage\ntune takes MILLISECONDS, or MILLISECONDS KIB, of digits alone; see --help\n' >&2
        exit 3
    }
    [ "$1" -le 60000 ] || fail 2 'tune: at most 60000 milliseconds'
    [ "$2" -ge "$least_memory" ] || fail 2 "tune: less than $least_memory KiB are too little for passwords"
    make_ready
    found=$("$program" tune argon2id 19 1 "$2" 1 32 seq "$1" </dev/null)
    status=$?
    case $status in
    0 | 1) tell_of_load ;;
    5) fail 5 "tune: check takes no hash of $2 KiB" ;;
    *) exit "$status" ;;
    esac
    [ "$status" = 0 ] \
        || fail 1 "tune: no settings for passwords within $2 KiB take at most $1 milliseconds here"
    # The three numbers are to be split.
    # shellcheck disable=SC2086
    set -- $found
    [ ! -t 2 ] || printf '%s milliseconds:\n' "$3" >&2
    printf 'argon2id 19 %s %s 1 32 seq\n' "$1" "$2" || exit 4
}
