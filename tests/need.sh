# Sourced by scripts that start programs of Debian's packages. A script says what it needs; what is missing is named with its packages, and
# the script ends with 2. Nothing is installed unless the script is started with `--install` before its other words.
# shellcheck shell=bash

install=() # --install, if the script was started with it
missing=() # packages

# help_if_asked WORDS..: where the first of a script's words is `--help`, prints the comment that the script begins with, and ends.
help_if_asked() {
    if [ "${1:-}" = --help ]; then
        sed -n '2,/^[^#]/s/^# \{0,1\}//p' "$0"
        exit
    fi
}

# take_install WORDS..: whether the first of a script's words is `--install`, which the script then drops.
take_install() {
    [ "${1:-}" = --install ] || return 1
    install=(--install)
}

# need COMMAND-OR-FILE PACKAGE..: notes what is missing, with the packages that have what is needed of it.
need() {
    if [ -e "$1" ] || command -v "$1" >/dev/null; then return; fi
    echo "$0: $1 is missing. Debian's packages for it: ${*:2}" >&2
    missing+=("${@:2}")
}

# Installs the packages noted.
install_missing() {
    local as_root=()
    [ "$(id -u)" = 0 ] || as_root=(sudo)
    "${as_root[@]}" apt-get update && "${as_root[@]}" apt-get install -y "${missing[@]}"
}

# have_needed: goes on where nothing noted is missing, or where it could be installed as asked.
have_needed() {
    [ "${#missing[@]}" -gt 0 ] || return 0
    if [ "${#install[@]}" = 0 ]; then
        echo "$0: install them, or start it again with --install, which has apt-get install them as root" >&2
        exit 2
    fi
    install_missing >&2 || { echo "$0: they could not be installed" >&2; exit 2; }
    missing=()
}
