# What takes packages from Debian by apt-get into $work, with package lists of its own there, so
# that nothing of the system's changes.

# use_lists RELEASE KIND: fetches the list of a release's packages (deb) or sources (deb-src), and
# sets `apt` to its folder and `options` to what has apt-get use it.
use_lists() {
    apt="$work/apt-$1-$2"
    mkdir -p "$apt"/{parts,lists/partial,cache/archives/partial,debs}
    printf '%s\n' "Types: $2" 'URIs: http://deb.debian.org/debian' "Suites: $1" \
        'Components: main' 'Signed-By: /usr/share/keyrings/debian-archive-keyring.gpg' \
        > "$apt/parts/debian.sources"
    options=(-qq -o Dir::Etc::sourcelist=/dev/null -o "Dir::Etc::sourceparts=$apt/parts"
        -o "Dir::State::lists=$apt/lists" -o Dir::State::status=/dev/null
        -o "Dir::Cache=$apt/cache" -o APT::Sandbox::User=root)
    apt-get "${options[@]}" update
}

# download RELEASE NAME..: unpacks packages into $work/RELEASE, after `use_lists RELEASE deb`.
download() {
    local release="$1"
    shift
    mkdir -p "$work/$release"
    (cd "$apt/debs" && apt-get "${options[@]}" download "$@")
    for package in "$apt"/debs/*.deb; do dpkg-deb -x "$package" "$work/$release"; done
}
