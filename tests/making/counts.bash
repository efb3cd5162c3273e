# Scripts in bash source this file. It counts checks, shows the output of those that fail, and says what a script leaves out. Its last functions
# build the example post in each language over a library that is installed below a prefix, in folders of $room that are named by $2.

# A folder for the script's files, removed at the end. `log` there has the output of the last check.
room=$(mktemp -d) || exit 1
trap 'rm -rf "$room"' EXIT
passed=0
failed=0

# Shows the first lines of a file, indented: a count in it must not look like the script's own.
indented() {
    head -n 40 "$1" | sed 's/^/    /'
}

# Runs the check $1, which is the command after its name, and counts it. Shows its output if it fails.
counts() {
    if "${@:2}" >"$room/log" 2>&1; then
        passed=$((passed + 1))
    else
        failed=$((failed + 1))
        echo "$1 FAILED:"
        indented "$room/log"
    fi
}

# Says that the script leaves out $1, and why.
not_run() {
    echo "not run: $1: $2"
}

# Whether the tool $1 of the Debian package $2 is on PATH. If not, says that the script leaves out $3.
has() {
    command -v "$1" >/dev/null && return
    not_run "$3" "there is no $1 (Debian package $2)"
    return 1
}

# Whether gcc links a program with the sanitizers $1. If not, says that the script leaves out $2.
sanitizes() {
    echo 'int main(void) { return 0; }' >"$room/empty.c"
    gcc "-fsanitize=$1" "$room/empty.c" -o "$room/empty" 2>/dev/null && return
    not_run "$2" "gcc links nothing with -fsanitize=$1 (Debian package libgcc-$(gcc -dumpversion)-dev)"
    return 1
}

# Whether the sums in the file $2 are those of the files below the folder $1, and whether each file but PROOF has one.
has_sums() {
    grep -E '^[0-9a-f]{64} ' "$2" >"$room/sums" && (cd "$1" && sha256sum --check --quiet "$room/sums") &&
        diff <(cut -c 67- "$room/sums" | sort) <(cd "$1" && find . -type f ! -name PROOF -printf '%P\n' | sort)
}

# Prints the last line of the script, and returns its status.
sum_up() {
    echo "$passed passed, $failed failed"
    [ "$failed" -eq 0 ]
}

# Whether a program prints the text beside the example in C of this name.
prints() {
    "${@:2}" >"$room/text" && diff -u "${top:-.}/examples/c/$1.text" "$room/text"
}

# Whether there is a cargo that builds the crate. If not, says that the script leaves out $1.
has_rust() {
    local least
    least=$(sed -n 's/^rust-version = "\(.*\)"$/cargo \1/p' bindings/rust/Cargo.toml)
    has cargo rustup "$1" || return
    printf '%s\n' "$least" "$(cargo --version)" | sort --check=quiet --version-sort && return
    not_run "$1" "there is no $least or later (Debian package rustup)"
    return 1
}

# In C++ over what is below the prefix $1.
posts_in_cpp() {
    g++ -std=c++17 examples/cpp/post.cpp "-I$1/include" "-L$1/lib" "-Wl,-rpath,$1/lib" -lstrm -o "$room/post_$2" && prints post "$room/post_$2"
}

# In Rust by the crate there, which finds the library there.
posts_in_rust() {
    install -D -m 644 examples/rust/post.rs "$room/crate_$2/src/main.rs" &&
        printf '%s\n' '[package]' 'name = "post"' 'version = "0.0.0"' 'edition = "2021"' '[dependencies]' \
            "strm = { path = \"$1/share/strm/bindings/rust\" }" >"$room/crate_$2/Cargo.toml" &&
        prints post env -u STRM_LIB_DIR "CARGO_TARGET_DIR=$room/cargo_$2" cargo run --quiet --offline --manifest-path "$room/crate_$2/Cargo.toml"
}

# In Python by the wheel there, which has the library.
posts_in_python() {
    python3 -m pip install --quiet --no-index --target "$room/site_$2" "$1"/share/strm/bindings/strm-*.whl &&
        prints post env -u STRM_LIBRARY "PYTHONPATH=$room/site_$2" python3 examples/python/post.py
}

# Counts all three, whose names begin with $3, and says which tool is missing.
counts_posts() {
    has g++ g++ "$3 in C++" && counts "$3 in C++" posts_in_cpp "$1" "$2"
    has_rust "$3 in Rust" && counts "$3 in Rust" posts_in_rust "$1" "$2"
    if python3 -m pip --version >/dev/null 2>&1; then
        counts "$3 in Python" posts_in_python "$1" "$2"
    else
        not_run "$3 in Python" "there is no pip (Debian package python3-pip)"
    fi
}
