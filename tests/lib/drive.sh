# For the run of a test to source. The test's folder is two below the root, and has its driver, check.py, if it has one.
here=$(cd "$(dirname "$0")" && pwd)
root=$here/../..

# Runs a driver and returns its status. In any case the last line is a count.
score() { # COMMAND..
    local printed status
    printed=$("$@" 2>&1)
    status=$?
    echo "$printed"
    # A run that dies half way has no last line of its own.
    if ! [[ ${printed##*$'\n'} =~ ^[0-9]+\ passed,\ [0-9]+\ failed$ ]]; then
        echo "0 passed, 1 failed"
        status=1
    fi
    return "$status"
}

# The driver in the test's folder.
drive() { # WORD..
    score python3 -B "$here/check.py" "$@"
}

# Builds or tests the implementation in Rust; prints nothing unless that fails.
differential() { # build|test
    local folders=(--manifest-path "$root/tests/differential/Cargo.toml" --target-dir "$root/target/differential")
    cargo "$1" --quiet --release --offline "${folders[@]}"
}
