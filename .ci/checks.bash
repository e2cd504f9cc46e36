# Sourced by the checks: the project's folder, a scratch folder, checks that are counted, what they need, crates that are thrown away, scripts
# with their listings, and a memory with its state.
root=$(dirname -- "$(dirname -- "$(readlink -f -- "${BASH_SOURCE[0]}")")")
# As bin/build.bash has it, or each would build what the other built.
export CARGO_ENCODED_RUSTFLAGS=--remap-path-prefix=$root=.
scratch=$(mktemp -d) || exit 1
trap 'rm -rf -- "$scratch"' EXIT

passed=0
failed=0

# check NAME COMMAND..: one check, counted; its output is shown only if it fails. Fails if the check did.
check() {
    local name=$1
    shift
    if "$@" >"$scratch/output" 2>&1; then
        passed=$((passed + 1))
    else
        failed=$((failed + 1))
        printf 'FAILED %s\n' "$name"
        head -n 40 -- "$scratch/output"
        return 1
    fi
}

# need COMMAND PACKAGE: a check that the command is there. Debian's package of it is installed where that may be done; else the check fails.
need() {
    check "$1 is there, of Debian's package $2" installed "$@"
}

installed() {
    if ! command -v -- "$1"; then
        printf "there is no %s: Debian's package %s has it\n" "$1" "$2"
        test "$(id -u)" -eq 0 && timeout 300 apt-get -q update && timeout 300 apt-get -qy install "$2" && hash -r && command -v -- "$1"
    fi
}

# summary: the last line of the checks; fails if one of them did.
summary() {
    printf '%s passed, %s failed\n' "$passed" "$failed"
    test "$failed" -eq 0
}

# prove_here: what the crates have in out/ is what rt keeps of their proofs as they stand; what it began with, it takes again.
prove_here() {
    (cd -- "$root" && rt all check) >"$scratch/proved" 2>&1 || { tail -n 40 -- "$scratch/proved" && false; }
}

# copy_crates: copies them to the scratch folder with what is proved of them, which rt takes there by the sum of its files. Fails if they are not.
copy_crates() {
    local status=0
    check 'the crates are proved' prove_here || status=1
    cp -R -- "$root/crates" "$root/crates.txt" "$scratch"
    if [ -e "$root/HANDLES" ]; then cp -- "$root/HANDLES" "$scratch"; fi
    return "$status"
}

# new_crate NAME CRATE..: an empty one over the others, beside these copies.
new_crate() {
    mkdir -p "$scratch/crates/$1"/{src,specs,proofs}
    printf '// Nothing: what it is for is in specs/ and proofs/.\n#![tactic(auto)]\n' >"$scratch/crates/$1/src/lib.rt"
    : >"$scratch/crates/$1/specs/Lib.antt"
    : >"$scratch/crates/$1/proofs/Lib.antt"
    printf '%s: %s\n' "$1" "${*:2}" >>"$scratch/crates.txt"
}

# check_crate NAME: has the checker check one of these crates; what it said is left beside them, in NAME.log.
check_crate() {
    (cd -- "$scratch/crates/$1" && rt check) >"$scratch/$1.log" 2>&1
}

# verdict NAME WORDS: this is the verdict that it gave on the crate, and not on one below that was built first.
verdict() {
    [[ $(sed -n "/^crate $1: modules /,\$p" "$scratch/$1.log" | grep '^logic=') =~ ^logic=$2($|\ ) ]]
}

# errors_in NAME FILES: what it refused in these files of the crate's proofs, a pattern.
errors_in() {
    grep -E "^(\./)?proofs/$2:[0-9]+:[0-9]+: error: " "$scratch/$1.log"
}

# cargo_tests FOLDER: the tests of a crate in Rust, each counted from cargo's "test result:" lines. One that waits for ever ends them.
cargo_tests() {
    local status ran=0 ok bad
    (cd -- "$root/$1" && timeout 1800 cargo test --release --offline --no-fail-fast --target-dir target) >"$scratch/tests" 2>&1
    status=$?
    while read -r ok bad; do
        passed=$((passed + ok))
        failed=$((failed + bad))
        ran=$((ran + ok + bad))
    done < <(sed -nE 's/^test result: .* ([0-9]+) passed; ([0-9]+) failed;.*/\1 \2/p' "$scratch/tests")
    if ((status != 0)); then
        cat -- "$scratch/tests"
    fi
    printf '%s: %s tests of its own\n' "$1" "$ran"
    check 'cargo test succeeds' test "$status" -eq 0
    check 'cargo test runs tests' test "$ran" -gt 0
}

# listing_agrees PROGRAM SCRIPT: the program's listing is the one beside the script, byte for byte.
listing_agrees() {
    "$root/bin/$1" <"$2" >"$scratch/listing" && cmp -- "$scratch/listing" "${2%.script}.listing"
}

# vectors FOLDER..: leaves the paths of the scripts of these folders of vectors/ in `scripts`.
vectors() {
    local folder found listings states
    scripts=()
    shopt -s nullglob
    for folder in "$@"; do
        found=("$root/vectors/$folder"/*.script)
        listings=("$root/vectors/$folder"/*.listing)
        states=("$root/vectors/$folder"/*.state)
        scripts+=("${found[@]}")
        check "vectors/$folder has scripts" test "${#found[@]}" -gt 0
        check "each listing of vectors/$folder has its script" test "${#found[@]}" -eq "${#listings[@]}"
        # those of the paper alone have none
        if [[ $folder != base ]]; then
            check "each state of vectors/$folder has its script" test "${#found[@]}" -eq "${#states[@]}"
        fi
    done
    shopt -u nullglob
}

# listings PROGRAM: the scripts of vectors/ by a program.
listings() {
    local script
    vectors base order1 order2 order3 order4 order5 order6 order7
    printf '%s: %s scripts in vectors/\n' "$1" "${#scripts[@]}"
    for script in "${scripts[@]}"; do
        check "${script#"$root"/vectors/}" listing_agrees "$1" "$script"
    done
}

# put FILE ADDRESS WORD..: 32-bit words from an address on, the lowest byte first.
put() {
    local file=$1 at=$2 word bytes=''
    shift 2
    for word in "$@"; do
        printf -v bytes '%s\\x%02x\\x%02x\\x%02x\\x%02x' "$bytes" $((word & 255)) $((word >> 8 & 255)) $((word >> 16 & 255)) $((word >> 24))
    done
    printf '%b' "$bytes" | dd of="$file" bs=4 seek="$at" conv=notrunc status=none
}

# The memory that the whole case leaves, written by docs/MEMORY.md.
whole_case() {
    head -c 32416 /dev/zero >"$scratch/memory"
    put "$scratch/memory" 0 2 0 0 32
    put "$scratch/memory" 164 {2..31} 0 1
    put "$scratch/memory" 308 1
    put "$scratch/memory" 8004 64
    put "$scratch/memory" 8008 {32..95}
}

# holds FILE STATE: the judge tells this state of it, and no more.
holds() {
    "$root/bin/judge" --state "$1" >"$scratch/told" 2>"$scratch/message" && cmp -- "$scratch/told" "$2" && ! test -s "$scratch/message"
}

# holds_whole_case FILE
holds_whole_case() {
    holds "$1" "$root/examples/whole-case.state"
}
