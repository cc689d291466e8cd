# For the run of a test that counts in shell, to source. It compiles C, and adds up what programs count.
passed=0 failed=0 folder='' room='' # what is built is in the folder; messages begin with the room
strict='-Wall -Wextra -Wpedantic -Werror -Iinclude -Itests/lib'
cc=gcc # the compiler of C

# The last line of every run, good or bad, is its count.
finish() {
    [ -z "$folder" ] || rm -rf "$folder"
    echo "$passed passed, $failed failed"
    [ "$failed" -eq 0 ]
    exit
}

# Prints the output of a command only where it fails.
try() { # WHAT COMMAND..
    local printed
    if printed=$("${@:2}" 2>&1); then
        passed=$((passed + 1))
        return 0
    fi
    failed=$((failed + 1))
    echo "$1"
    echo "$printed"
    return 1
}

# Of tools or files that tests need, those that are missing.
missing() { # NEED:PACKAGE..
    local need
    for need; do
        [ -e "${need%%:*}" ] || command -v "${need%%:*}" >/dev/null 2>&1 || echo "$need"
    done
}

# Without a network it gives up soon.
packages() { # WORD.., as apt-get takes them
    DEBIAN_FRONTEND=noninteractive apt-get -qq -o Acquire::Retries=0 -o Acquire::http::Timeout=20 "$@" \
        </dev/null >/dev/null 2>&1
}

install_packages() { # PACKAGE..
    packages install -y --no-install-recommends "$@"
}

# Installs Debian's packages for what is missing: all at once, or else each that can be. Fails where one still is.
provide() { # NEED:PACKAGE..
    local names name
    readarray -t names < <(missing "$@" | cut -d : -f 2 | sort -u)
    [ "${#names[@]}" -gt 0 ] || return 0
    install_packages "${names[@]}" || {
        packages update
        for name in "${names[@]}"; do install_packages "$name"; done
    }
    [ -z "$(missing "$@")" ]
}

# The top of the repository, a folder for what is built, and a C compiler. Without them a run ends here.
open_folder() { # ROOM
    room=$1
    if ! cd "$root" || ! folder=$(mktemp -d); then
        failed=1
        finish
    fi
    try "$room: no C compiler" provide gcc:gcc g++:g++ nm:binutils || finish
}

# Compiles C of the year 1999 and links it.
compile() { # WHAT WORD..
    # shellcheck disable=SC2086
    try "$1" "$cc" -std=c99 $strict "${@:2}"
}

# Runs a program that counts, and adds its count, which it prints last; a run that dies has none. What else it prints is
# shown.
add_count() { # NAME COMMAND..
    local printed status last
    printed=$("${@:2}" 2>&1)
    status=$?
    last=${printed##*$'\n'}
    if [[ $last =~ ^([0-9]+)\ passed,\ ([0-9]+)\ failed$ ]] &&
        { [ "$status" -eq 0 ] || [ "${BASH_REMATCH[2]}" -gt 0 ]; }; then
        passed=$((passed + BASH_REMATCH[1])) failed=$((failed + BASH_REMATCH[2]))
        printed=${printed%"$last"}
        printf '%s' "$printed"
    else
        failed=$((failed + 1))
        echo "$1: ended with status $status"
        echo "$printed"
    fi
}
