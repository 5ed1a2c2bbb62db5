# shellcheck shell=bash
# Fetches packages of Debian, and small systems, from the archive that the machine itself uses, by separate lists.

# apt-get by the lists of a folder alone: `apt_in FOLDER WORD..`.
apt_in() {
    apt-get -qq -o "Dir::Etc::sourcelist=$1/sources.list" -o Dir::Etc::sourceparts=- -o "Dir::State::lists=$1/lists" \
        -o APT::Sandbox::User=root "${@:2}"
}

# The archive of Debian, or of what else its mirror has: `mirror_of debian|ubuntu`.
mirror_of() {
    cat /etc/apt/sources.list /etc/apt/sources.list.d/*.{list,sources} 2>/dev/null | grep -E '^(URIs:|deb )' \
        | sed -nE "s|.* ([a-z+]+://[^ ]+/)debian/?( .*)?\$|\1$1|p;T;q"
}

# Makes a small system of a release of Debian, or of Ubuntu's noble, in a folder: `make_system RELEASE FOLDER OPTION..`,
# with options of mmdebstrap such as --include=PACKAGE,... Ubuntu's mirror is trusted, since Debian lacks its keys. A
# mirror of Debian's next release may be a few weeks old.
make_system() {
    local from
    from=$(mirror_of debian)
    [[ $1 != noble ]] || from="deb [trusted=yes] $(mirror_of ubuntu) noble main"
    mmdebstrap --quiet --variant=minbase --aptopt='Acquire::Check-Valid-Until "false"' "${@:3}" "$1" "$2" "$from"
}

# The lists of a release in a folder: `make_lists deb|deb-src RELEASE FOLDER`.
make_lists() {
    mkdir -p "$3/lists/partial"
    echo "$1 [signed-by=/usr/share/keyrings/debian-archive-keyring.gpg] $(mirror_of debian) $2 main" >"$3/sources.list"
    apt_in "$3" update
}

# Unpacks the newest source of a package in a release into a folder, without what Debian adds:
# `fetch_source RELEASE PACKAGE FOLDER`.
fetch_source() {
    make_lists deb-src "$1" "$3" && (cd "$3" && apt_in "$PWD" source --tar-only --download-only "$2" \
        && tar xf "$2"_*.orig.tar.* --strip-components=1)
}

# Unpacks the newest package of a release into a folder: `fetch_package RELEASE PACKAGE FOLDER`.
fetch_package() {
    make_lists deb "$1" "$3" && (cd "$3" && apt_in "$PWD" download "$2" && dpkg-deb -x "$2"_*.deb .)
}
