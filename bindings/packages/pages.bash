# shellcheck shell=bash disable=SC2154 # the variables are those of ./install and debian/papers
# How ./install and debian/papers ship pages of the repository. They source it, with the repository's `root`.

# The project's address.
address=$(sed -n 's/^Address: //p' "$root/PROJECT")

# Copies pages, below the folder at their paths here: `ship_pages FOLDER PAGE..`. A relative link stays if it leads to
# another of these pages, and else leads to the project's address. One with other than plain characters stays as it is.
ship_pages() {
    local to=$1 page path link text
    shift
    for page in "$@"; do
        text=$(<"$root/$page")
        while IFS= read -r link; do
            path=$(realpath -ms --relative-to="$root" -- "$root/$(dirname "$page")/$link")
            [[ " $* " == *" $path "* ]] || text=$(sed --sandbox "s|]($link\([)#]\)|]($address/$path\1|g" <<<"$text")
        done < <(grep -oE '\]\([A-Za-z0-9_./-]+[)#]' "$root/$page" | sed 's/..//; s/.$//' | LC_ALL=C sort -u)
        install -D -m 644 /dev/stdin "$to/$page" <<<"$text"
    done
}
