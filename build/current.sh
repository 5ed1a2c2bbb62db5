# Functions for sh that tell whether what was built, and release/, are of the present sources of the repository `root`.
# They leave a fault in `why`.
# shellcheck shell=sh disable=SC2034,SC2154

# crates.txt and the sources (src, specs, proofs) of crates and of those below them: `find_sources NAME..` leaves them
# in `sources`.
find_sources() {
    sources=crates.txt
    for crate in $(awk -F '[ :]' -v asked="$*" '{ below[$1] = $0 } END {
        for (; match(asked, /[a-z0-9_]+/); asked = substr(asked, RSTART + RLENGTH))
            if (!seen[crate = substr(asked, RSTART, RLENGTH)]++) { print crate; asked = asked " " below[crate] }
    }' "$root/crates.txt"); do
        for kind in src specs proofs; do
            [ ! -d "$root/crates/$crate/$kind" ] || sources="$sources crates/$crate/$kind"
        done
    done
    for crate; do
        case $sources in *" crates/$crate/src"*) ;; *) why="crates.txt has no $crate" && return 1 ;; esac
    done
}

# The hash of files, and of those in folders, with their names and contents: `sum_files PATHS..` leaves it in `sum`.
# Patterns are of files in the repository, whatever the present folder is.
sum_files() {
    # shellcheck disable=SC2048,SC2086 # they are words and patterns
    sum=$(cd "$root" && find $* ! -type d -exec sha256sum {} + | LC_ALL=C sort -k 2 | sha256sum) && sum=${sum%% *}
}

# A machine of build/machines.txt, by its name or a build's: `find_machine NAME` leaves its values in `machine`,
# `number`, `target`, `tool_prefix`, `base` and `builds`, the builds that the toolchain makes in `proved`, and the
# others in `kernels`.
find_machine() {
    while read -r machine number target tool_prefix base builds; do
        case $machine:" $machine $builds " in
        [#+]*) ;;
        *" $1 "*)
            tool_prefix=${tool_prefix#-} base=${base%:} proved=${builds%% + *} kernels=''
            [ "$proved" = "$builds" ] || kernels=${builds#* + } builds="$proved $kernels"
            return
            ;;
        esac
    done <"$root/build/machines.txt"
    why="nothing is built for $1"
    return 1
}

# The names of all machines, into `machines`.
find_machines() {
    machines=$(awk -v ORS=' ' '/^[^#+ ]/ { print $1 }' "$root/build/machines.txt")
}

# The release of Debian whose packages link release/, and these packages, in the order in which dpkg-query prints them.
debian=bookworm
tool_packages='binaryen binutils binutils-aarch64-linux-gnu binutils-mingw-w64-x86-64 cpp-12 gcc gcc-12
    gcc-12-aarch64-linux-gnu gcc-aarch64-linux-gnu gcc-mingw-w64-x86-64-posix gcc-mingw-w64-x86-64-posix-runtime
    libc6-dev libc6-dev-arm64-cross libgcc-12-dev mingw-w64-common mingw-w64-x86-64-dev python3-pyelftools wabt'

# Prints the release of Debian that runs here and the versions of these packages, `CODENAME PACKAGE=VERSION..`, as the
# list of release/ names them. Fails if one is not installed.
list_packages() {
    # shellcheck disable=SC2086 # they are words
    (. /etc/os-release && printf %s "$VERSION_CODENAME") && dpkg-query -Wf ' ${Package}=${Version}' $tool_packages
}

# ---- what is built here

# Fails if git tracks a file in a folder `out`. Such a file would pass for one that was built here.
tracks_nothing_built() {
    why='git does not say what it tracks'
    tracked=$(git -c safe.directory='*' -C "$root" ls-files -- ':(glob)**/out' ':(glob)**/out/**' 2>/dev/null) \
        || [ ! -e "$root/.git" ] || return
    why="git may not track $tracked, which would pass for a built file"
    [ -z "$tracked" ]
}

# `line_of NAME..` leaves in `line` what a build of crates is made from: the hash of their sources and, if there is a
# kit, the output of `rt version`.
line_of() {
    find_sources "$@" && sum_files "$sources" || return
    line=$sum rt=$(PATH=$PATH:/opt/rattle/bin && command -v rt) || return 0
    rt=$(readlink -f -- "$rt")
    [ ! -e "${rt%/*}/../KIT-ID" ] || line="$sum $(paste -s -d ' ' -- "${rt%/*}/../KIT-ID")"
}

# `find_note FILE` leaves in `note` the file in which a build is noted, and in `of` what is noted of its content. A
# folder's note is inside it, and disappears with the old folder.
find_note() {
    note=$1/sources of=folder
    [ -d "$1" ] || { note=$1.sources && of=$(sha256sum <"$1"); }
}

# Notes that a file, or a folder's content, is built of the sources of a crate: `note_built CRATE LINE FILE`. Fails if
# LINE, taken before the build, has changed.
note_built() {
    why="$3 cannot be noted"
    find_note "$3" && rm -f -- "$note" && line_of "$1" || return
    why="$3: a source has changed since its build began"
    [ "$line" = "$2" ] && printf '%s\n' "$line" "$of" >"$note.$$" && mv -f -- "$note.$$" "$note"
}

# `is_built CRATE FILE` fails unless a file, or a folder's content, is as noted beside it, and was built of these
# sources of a crate and, if there is one, by this kit.
is_built() {
    why="$2 is not built"
    [ -e "$2" ] && tracks_nothing_built && line_of "$1" && find_note "$2" || return
    why="$2 is older than its sources" noted='' noted_of=''
    ! [ -e "$note" ] || { read -r noted && read -r noted_of; } <"$note"
    case $noted_of:$noted in "$of:$line" | "$of:$line "*) ;; *) return 1 ;; esac
}

# ---- release/

# `others_of FOLDER` leaves in `others` the files, and patterns of files, from which a folder of release/ is built
# beside proved crates, by the toolchain alone or by a C compiler too.
others_of() {
    others='build/add_kernel build/link_wasm build/machines.txt bindings/kernels/*.c bindings/wasm/instance.s'
    find_machines
    case " windows-x86_64 $machines " in
    *" $1 "*)
        others="$others VERSION build/link build/write_coff build/library.map bindings/c/include/*.h
            bindings/c/src/*.[ch] bindings/javascript/addon/*.[ch] bindings/shell/words.c
            bindings/libargon2/*.[chm]* bindings/windows/*.c"
        ;;
    *) [ "$1" != portable ] || others="$others build/translate bindings/portable/translate.py" ;;
    esac
}

# The hash of everything a folder of release/ is built from: `sum_part FOLDER`.
sum_part() {
    find_sources argon2_c && others_of "$1" || return
    sum_files "$sources $others"
}

# `is_of_sources FOLDER` fails unless the manifest of release/ says that this folder is of these sources.
is_of_sources() {
    sum_part "$1" || return
    why="release/MANIFEST is of other sources of $1"
    [ "$(grep "^# sources $1 " "$root/release/MANIFEST" 2>/dev/null)" = "# sources $1 $sum" ]
}

# `is_listed PART` fails unless a file of release/, or a folder's content, is as the manifest names it. The folder may
# have no other file.
is_listed() {
    why="release/MANIFEST names no file of $1"
    listed=$(grep -E "^[^#].*  $1(/|\$)" "$root/release/MANIFEST") || return
    names=$(sed -nE "s|^[^#].*  ($1(/.*)?)\$|\1|p" "$root/release/MANIFEST" | LC_ALL=C sort)
    found=$(cd "$root/release" && find "$1" ! -type d 2>/dev/null | LC_ALL=C sort)
    if [ "$names" != "$found" ]; then
        other=$(printf '%s\n' "$names" "$found" | LC_ALL=C sort | uniq -u | grep -m 1 .)
        why="release/$other is not the file that release/MANIFEST names: it is not there"
        case $found in *"$other"*) why="release/MANIFEST does not name $other" ;; esac
        return 1
    fi
    why=$(cd "$root/release" && printf '%s\n' "$listed" | LC_ALL=C sha256sum --check --strict --quiet 2>&1) && return
    why="release/${why%%: FAILED*} is not the file that release/MANIFEST names"
    return 1
}
