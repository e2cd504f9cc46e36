# Sourced by the commands: what they have in common before the program itself begins. The help and the version take no proof and no build; the
# standard streams are looked at first; what is run is proved or built where a source is newer, and a signal to the command ends that, too.
root=$(dirname -- "$(dirname -- "$(readlink -f -- "${BASH_SOURCE[0]}")")")
name=$(basename -- "$(readlink -f -- "${BASH_SOURCE[1]}")")
archives=$root/target/staticlib
objects=$root/target/proved
# What Rust builds names no file of this folder, which an installed program has nothing to do with.
export CARGO_ENCODED_RUSTFLAGS=--remap-path-prefix=$root=.

# About how many seconds the proof of each crate takes on two cores.
declare -A takes=([rules]=53 [streams]=10 [reasons]=2 [memory]=52 [validate]=37 [node]=43 [script]=49 [follow]=56 [listing]=31 [capi]=31 [capi_c]=12 [why]=43
    [fugu]=12 [why_main]=12)

# What is made of the last crate of a proof: of a program its object, of a static library its archive.
declare -A makes=([fugu]=$objects/fugu.o [why_main]=$objects/why.o [capi_c]=$archives/libcapi.a)

# fail STATUS MESSAGE
fail() {
    printf '%s: %s\n' "$name" "$2" >&2
    exit "$1"
}

# misused MESSAGE: with the usage, the first paragraph of the help.
misused() {
    local help
    help=$(<"$root/bin/help/$name")
    fail 2 "$1"$'\n'"${help%%$'\n\n'*}"
}

# uses STREAM..: input or output is not closed. The program looks again, and at more; but it may have to be proved first.
uses() {
    local stream
    for stream in "$@"; do
        case $stream in
        input) { : 3<&0; } 2>/dev/null ;;
        output) { : 3>&1; } 2>/dev/null ;;
        esac || fail 1 "standard $stream: Bad file descriptor"
    done
}

# print: writes its input to standard output, and that is all there was to do.
print() {
    local message status=0
    uses output
    { message=$(LC_ALL=C env --default-signal=PIPE cat 2>&1 >&3 3>&-) || status=$?; } 3>&1
    [[ -z $message ]] || fail 1 "standard output: ${message##*: }"
    exit "$status"
}

# The process group that was started last and has not ended, and the file that it makes.
started=
making=

# interrupted SIGNAL: ends what was started, and then this command by the same signal. A file that was half written would look like a whole one.
interrupted() {
    trap - "$1"
    if [[ -n $started ]]; then kill -TERM -- "-$started" "$started" 2>/dev/null || true; fi
    if [[ -n $making ]]; then rm -f -- "$making"; fi
    kill -s "$1" "$$"
}

# show TEXT: in place of what the terminal's line has; nothing where standard error is none.
show() {
    if [[ -t 2 ]]; then printf '\r%s\e[K' "$1" >&2; fi
}

# watch HEARD FOLDER COMMAND..: runs it there, in a process group of its own. HEARD gets each line that it says, and none once a second. Where it
# fails, this command does, with what it said last.
watch() {
    local said part line='' status lines=()
    exec {said}< <(cd -- "$2" && exec setsid "${@:3}" 2>&1 </dev/null)
    started=$!
    while true; do
        status=0
        IFS= read -r -t 1 part <&"$said" || status=$?
        line+=$part
        if ((status == 0)); then
            lines+=("$line")
            "$1" "$line"
            line=''
        elif ((status > 128)); then
            "$1" ''
        else
            break
        fi
    done
    exec {said}<&-
    status=0
    wait "$started" || status=$?
    started=
    show ''
    if ((status != 0)); then
        fail 1 "${*:3} ended with status $status and said last:"$'\n'"$(printf '%s\n' "${lines[@]}" "$line" | tail -n 20)"
    fi
}

# clock SECONDS
clock() {
    printf '%d:%02d' $(($1 / 60)) $(($1 % 60))
}

# of_about TIME SECONDS: so far, and about how many in all, which are not fewer.
of_about() {
    local all=$(($2 > $1 ? $2 : $1))
    clock "$1"
    if ((all < 90)); then printf ' of about %d s' $(((all + 9) / 10 * 10)); else printf ' of about %d min' $(((all + 30) / 60)); fi
}

# needs COMMAND WHAT
needs() {
    command -v -- "$1" >/dev/null || fail 1 "there is no $1 on the path, $2: README.md tells what is needed"
}

# changed_since TIME SOURCE..: a file of the sources is newer, or one is not there. What cargo and rt build beside them is none.
changed_since() {
    local newer
    ! newer=$(find "${@:2}" \( -name target -o -name out \) -prune -o -newermt "$1" -type f -print -quit 2>/dev/null) || [[ -n $newer ]]
}

# is_older MADE SOURCE..: than a source, or not there.
is_older() {
    [[ ! -e $1 ]] || changed_since "@$(stat -c %.9Y -- "$1")" "${@:2}"
}

# find_kit: leaves in `kit` the Rattle toolchain's folder, which rt is of.
find_kit() {
    needs rt "the Rattle toolchain's command, which proves"
    kit=${RATTLE_HOME:-$(dirname -- "$(dirname -- "$(readlink -f -- "$(command -v rt)")")")}
}

# needed_by CRATE: leaves in `crates` those that its proof takes, itself last, in the order of crates.txt: each stands there behind those that it
# needs, and they are proved so.
needed_by() {
    local crate needs wanted=" $1 "
    crates=()
    while IFS=: read -r crate needs; do
        crate=${crate%% *}
        if [[ $wanted == *" $crate "* ]]; then
            crates=("$crate" "${crates[@]}")
            wanted+="$needs "
        fi
    done < <(tac -- "$root/crates.txt")
}

# proving LINE: what rt said, if anything, of a crate that it proves. How long the rest takes is told by how long it should and how this machine did so
# far.
proving() {
    local all=$((expected > 0 ? spent + left * spent / expected : left))
    if [[ $1 == 'logic=proved '* ]]; then changed=1; fi
    show "$name: proving ${crates[at]}, $((at + 1)) of ${#crates[@]}, $(of_about $((SECONDS - began)) "$all")"
}

# prove_one CRATE COMMAND..: by rt in its folder. One that is unchanged was proved already; of another, where standard error is no terminal, a line tells
# that it is proved now.
prove_one() {
    local changed=
    watch proving "$root/crates/$1" "${@:2}"
    at=$((at + 1))
    left=$((left - ${takes[$1]-0}))
    if [[ -n $changed ]]; then
        spent=$((SECONDS - began))
        expected=$((expected + ${takes[$1]-0}))
        if [[ ! -t 2 ]]; then printf '%s: %s proved, %d of %d\n' "$name" "$1" "$at" "${#crates[@]}" >&2; fi
    fi
}

# prove CRATE: has rt prove a program or a static library where a crate is newer, those first that it takes, and leaves what is made of it. That is newer
# than the crates then, unless one changed meanwhile.
prove() {
    local made=${makes[$1]} before=$EPOCHREALTIME sources=("$root/crates.txt" "$root/crates")
    local crates crate at=0 began=$SECONDS spent=0 expected=0 left=0 kit
    if ! is_older "$made" "${sources[@]}"; then return; fi
    find_kit
    if [[ $made == *.o ]]; then needs objcopy "the linker's companion, which names"; fi
    needed_by "$1"
    for crate in "${crates[@]}"; do left=$((left + ${takes[$crate]-0})); done
    for crate in "${crates[@]:0:${#crates[@]}-1}"; do prove_one "$crate" rt lib "$crate"; done
    mkdir -p -- "$archives" "$objects"
    making=$made
    case $made in
    *.a)
        prove_one "$1" rt lib "$1"
        cp -f -- "$root/crates/$1/out/lib$1.a" "$made"
        ;;
    *.o)
        # rt has no command that builds a program and does not run it. It gets no input here.
        prove_one "$1" rt run "$1" -- --all
        objcopy --redefine-sym main=proved_program --redefine-sym __sysv_signal=proved_program_signal "$root/crates/$1/out/$1.o" "$made"
        cp -f -- "$kit"/c/lib{os,libc}_c.a "$objects"
        ;;
    esac
    touch -- "$made"
    if changed_since "@$before" "${sources[@]}"; then
        touch -d "@$before" -- "$made"
    fi
    making=
    if [[ -t 2 ]]; then printf '%s: proved in %s\n' "$name" "$(clock "$spent")" >&2; fi
}

# building LINE: what cargo said is of interest only where it fails.
building() {
    show "$name: building, $(clock $((SECONDS - began)))"
}

# build FOLDER PROGRAM: builds a program in Rust where a source is newer, and leaves its path in `program`. The stamp gets the time before the build,
# so that a source changed meanwhile is newer.
build() {
    local folder=$root/$1 built=$root/$1/target/built-$2 before=$EPOCHREALTIME began=$SECONDS
    local sources=("$folder" "$root/cli" "$root/bin/help" "$root/VERSION")
    case $1/$2 in
    programs/*) sources+=("$objects/$2.o") ;;
    desk/* | trials/*) sources+=("$archives/libcapi.a" "$root/capi/rust" "$root/judge") ;;
    replay/*) sources+=("$archives/libcapi.a" "$root/capi/rust" "$root/target/wasm/fugu.wasm") ;;
    esac
    program=$folder/target/release/$2
    if [[ ! -x $program ]] || is_older "$built" "${sources[@]}"; then
        needs cargo "Rust's command, which builds"
        needs cc 'the C compiler, which links'
        watch building "$folder" cargo build --release --offline --quiet --target-dir target --bin "$2"
        touch -d "@$before" -- "$built"
    fi
}

# library: makes libfugu of the proved calls, static and shared, in target/lib, where it is older. Nothing of the shared one is bound late, so that no
# call needs the stack that binding takes.
library() {
    local folder=$root/target/lib version made
    read -r version <"$root/VERSION"
    made=$folder/libfugu.so.$version
    if ! is_older "$made" "$archives/libcapi.a" "$root/capi/fugu.map" "$root/VERSION"; then return; fi
    needs cc 'the C compiler, which links'
    mkdir -p -- "$folder"
    making=$folder/new
    cc -shared -nostartfiles -Wl,-soname,libfugu.so.0 -Wl,--version-script="$root/capi/fugu.map" -Wl,-z,defs,-z,text,-z,now \
        -Wl,--whole-archive "$archives/libcapi.a" -Wl,--no-whole-archive -o "$making"
    cp -f -- "$archives/libcapi.a" "$folder/libfugu.a"
    ln -sf -- "libfugu.so.$version" "$folder/libfugu.so.0"
    ln -sf -- libfugu.so.0 "$folder/libfugu.so"
    mv -f -- "$making" "$made"
    making=
}

# calls: those that the header declares, one to a line.
calls() {
    sed -nE 's/^uint32_t (fugu_[a-z_]+)\(.*/\1/p' "$root/capi/fugu.h"
}

# find_compiler: leaves in `kit` the Rattle toolchain's folder, which rt is of, and in `clang` its compiler.
find_compiler() {
    local part
    find_kit
    clang=$kit/toolchain/bin/clang
    for part in "$kit/bin/rattle" "$clang"; do
        [[ -x $part ]] || fail 1 "$part is not there: this is another toolchain than VERSION names"
    done
}

# compiling LINE: what prover and compiler said is of interest only where they fail.
compiling() {
    show "$name: compiling the proved calls for a page, $(of_about $((SECONDS - began)) "${takes[capi_c]}")"
}

# keeping_toolchain: a folder as the kit's, but that the compiler keeps the module that it is handed.
keeping_toolchain() {
    mkdir -p -- "$parts/toolchain/bin"
    ln -s -- "$kit/toolchain/lib" "$parts/toolchain"
    ln -s -- "$kit/toolchain/bin"/* "$parts/toolchain/bin"
    rm -f -- "$parts/toolchain/bin/clang"
    # shellcheck disable=SC2016 # the words are those of the compiler's own call
    printf '#!/usr/bin/env bash\nfor word; do case $word in *.bc) cp -- "$word" %q ;; esac; done\nexec %q "$@"\n' "$parts/module.bc" "$clang" \
        >"$parts/toolchain/bin/clang"
    chmod +x -- "$parts/toolchain/bin/clang"
}

# keep_module: has the prover build the archive of the calls once more, as rt has it do, and keeps the module that it hands its compiler, module.bc.
# The archive is the one that programs are linked with, to the byte, so the module is theirs.
keep_module() {
    local crates crate externs=()
    needed_by capi_c
    for crate in "${crates[@]:0:${#crates[@]}-1}"; do
        externs+=(--extern "$crate=$root/crates/$crate/out/rlib/$crate.rlib" -L "dependency=$root/crates/$crate/out/rlib")
    done
    watch compiling "$parts" "$kit/bin/rattle" build --crate-name capi_c "$root/crates/capi_c/src/lib.rt" \
        --extern "std=$kit/rlibs/std.rlib" -L "dependency=$kit/rlibs" "${externs[@]}" \
        --antt-project "$kit/rattle/logic/antt-project.json" --logic-built "$kit/logic_built" --links capi_c= \
        --crate-type staticlib --toolchain "$parts/toolchain" --backend llvm -o libcapi.a
    cmp -s -- "$parts/libcapi.a" "$archives/libcapi.a" ||
        fail 1 'the prover builds another archive now than target/staticlib/libcapi.a: remove that one'
    [[ -s $parts/module.bc ]] || fail 1 'the prover handed its compiler no module'
}

# retarget: leaves the module as text, native.ll, and the same for the other machine, wasm.ll: the two lines that name the machine exchanged and three
# attributes taken off. Where something is left that only the one has, or that depends on how wide a pointer is, this fails. Of values with a pointer in
# them that stand in memory whole, only one with 64 bits behind it is on both machines as it is here.
retarget() {
    local layout changed found
    local bound='ptrtoint|ptrtoaddr|inttoptr|\<asm\>|x86|addrspace|x ptr\]|getelementptr( [a-z]+)* ptr,'
    local whole='(load|store|alloca|getelementptr)( [a-z]+)* [{[<].*\<ptr\>.*[]}>]|^%.* = type .*\<ptr\>'
    watch compiling "$parts" "$clang" -S -emit-llvm -Xclang -disable-llvm-passes -x ir module.bc -o native.ll
    layout=$("$clang" --target=wasm32-unknown-unknown -S -emit-llvm -x c /dev/null -o - | grep '^target datalayout = ') ||
        fail 1 "$clang can't compile for WebAssembly: this is another toolchain than VERSION names"
    sed -E -e "s|^target datalayout = .*|$layout|" -e 's|^(target triple = ).*|\1"wasm32-unknown-unknown"|' \
        -e '/^attributes /s| "probe-stack"="inline-asm" "stack-probe-size"="[0-9]+" "target-cpu"="x86-64-v2"||' "$parts/native.ll" >"$parts/wasm.ll"
    changed=$(diff -- "$parts/native.ll" "$parts/wasm.ll" | grep -c '^<') || true
    ((changed == 3)) || fail 1 "$changed lines of the module name its machine, and not 3: diff $parts/native.ll $parts/wasm.ll"
    if found=$(grep -nE "$bound|$whole" "$parts/wasm.ll" | grep -vE '^[0-9]+:  %[^ ]+ = load \{ ptr, i64 \}, ptr %[^ ]+, align 8(, ![a-z]+ ![0-9]+)*$'); then
        fail 1 "the module is bound to its machine: $parts/wasm.ll:${found%%$'\n'*}"
    fi
}

# wasm: makes the proved calls for a page, target/wasm/fugu.wasm, where they are older. The compiler has the flags that the prover gives it but for those
# of its machine, and may use of the new machine what its first version has and the moving of memory. The stack stands below all else, so that a call that ran out of it
# would end and overwrite nothing.
wasm() {
    local made=$root/target/wasm/fugu.wasm parts=$root/target/wasm/parts began=$SECONDS kit clang exports
    if ! is_older "$made" "$archives/libcapi.a" "$root/capi/fugu.h"; then return; fi
    find_compiler
    rm -rf -- "$parts"
    keeping_toolchain
    keep_module
    retarget
    watch compiling "$parts" "$clang" --target=wasm32-unknown-unknown -mcpu=mvp -mbulk-memory \
        -mllvm -trap-unreachable -mllvm -no-trap-after-noreturn -mllvm -disable-machine-licm -mllvm -disable-postra-machine-licm \
        -mllvm -sink-common-insts=false -mllvm -expand-div-rem-bits=64 -mllvm -expand-fp-convert-bits=64 \
        --no-default-config -no-canonical-prefixes -Werror -O3 -c -x ir wasm.ll -o wasm.o
    mapfile -t exports < <(calls)
    ln -s -- "$clang" "$parts/wasm-ld"
    watch compiling "$parts" ./wasm-ld --no-entry "${exports[@]/#/--export=}" --export=__heap_base \
        --stack-first -z stack-size=65536 wasm.o -o fugu.wasm
    mv -f -- "$parts/fugu.wasm" "$made"
}

# run FOLDER PROGRAM ARGUMENT..: becomes a program in Rust, built first.
run() {
    build "$1" "$2"
    exec "$program" "${@:3}"
}

for signal in HUP INT TERM; do
    # shellcheck disable=SC2064 # the signal's name is meant
    trap "interrupted $signal" "$signal"
done

# Help and version are asked for alone.
if (($# == 1)); then
    case $1 in
    -h | --help) print <"$root/bin/help/$name" ;;
    --version)
        { read -r version && read -r kit; } <"$root/VERSION"
        print <<<"$name $version, proved with $kit"
        ;;
    esac
fi
