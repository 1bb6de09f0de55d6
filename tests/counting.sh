# For the test scripts: cases are held to what is expected of them and counted.
export LC_ALL=C
passed=0
failed=0

# same CASE EXPECTED FOUND
same() {
    if [ "$2" = "$3" ]; then
        passed=$((passed + 1))
    else
        failed=$((failed + 1))
        printf 'FAILED: %s\n--- expected\n%s\n--- found\n%s\n' "$1" "$2" "$3"
    fi
}

# The last line of a test script, and its exit status.
ending() {
    printf '%s passed, %s failed\n' "$passed" "$failed"
    [ "$failed" -eq 0 ] && [ "$passed" -gt 0 ]
}

# Makes the folder $scratch, which goes when the script ends.
make_scratch() {
    scratch=$(mktemp -d) || exit 1
    trap 'rm -rf "$scratch"' EXIT
}

# line CRATE: what crates.txt says of it. The name stands before the colon, and before the word of a static library.
line() {
    grep -E "^$1( [^:]*)?:" crates.txt
}

# below CRATE: on one line all that a crate rests on, of the repository in the order of crates.txt, then of the kit. A line of crates.txt has what the crate itself names, and no more.
below() {
    CRATE=$1 awk -F : '
        { split($1, words, " "); name[NR] = words[1]; uses[NR] = $2 }
        END {
            reached[ENVIRON["CRATE"]] = more = 1
            while (more)
                for (i = more = 0; ++i <= NR;)
                    if (name[i] in reached)
                        for (k = split(uses[i], used, " "); k; k--)
                            if (!(used[k] in reached)) reached[used[k]] = more = 1
            delete reached[ENVIRON["CRATE"]]
            for (i = 1; i <= NR; i++)
                if (name[i] in reached) { printf "%s ", name[i]; delete reached[name[i]] }
            for (i in reached) printf "%s ", i
        }' crates.txt
}

# copied CRATE..: puts the text of those that are the repository's below $scratch, without what was made of it. rt takes no link to a crate outside.
copied() {
    local crate part
    for crate in "$@"; do
        for part in src specs proofs; do
            [ -d "crates/$crate/$part" ] || continue
            mkdir -p "$scratch/crates/$crate"
            cp -r "crates/$crate/$part" "$scratch/crates/$crate/"
        done
    done
}

# make_program NAME SOURCE LIBRARY: makes $scratch a repository of its own, of a library of the product, what that rests on, and a program that calls them.
make_program() {
    local crate
    # shellcheck disable=SC2046
    copied $(below "$3") "$3"
    mkdir -p "$scratch/crates/$1/src"
    cp "$2" "$scratch/crates/$1/src/main.rt"
    {
        for crate in $(below "$3") "$3"; do line "$crate"; done
        echo "$1: $(below "$3") $3"
    } >"$scratch/crates.txt"
}

# Bytes as hexadecimal digits, and back.
hex() {
    od -An -v -tx1 | tr -d ' \n'
}

unhex() {
    printf '%b' "$(printf '%s' "$1" | sed 's/../\\x&/g')"
}

# damaged HEX: one byte changed, some bytes cut off, or a byte put behind.
damaged() {
    local sheet=$1 at=$((RANDOM % (${#1} / 2) * 2))
    case $((RANDOM % 4)) in
    0) printf '%s' "${sheet:0:at}" ;;
    1) printf '%s%02x' "$sheet" $((RANDOM % 256)) ;;
    *) printf '%s%02x%s' "${sheet:0:at}" $((0x${sheet:at:2} ^ 1 << RANDOM % 8)) "${sheet:at + 2}" ;;
    esac
}
