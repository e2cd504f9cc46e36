# Sourced by .ci/edits and .ci/alone: what an edit of crates/*/must-fail says, its tries, and what the prover said of it.
# An edit has for each of its wrong programs a line 'wrong: NAME', unless it has but one, which then has the edit's name; a line 'refused by: '
# with functions, or with cases and laws; and what is changed. A function is refused where a fact that its proof asks for is not proved: not
# where its proof has lost its place in the code, or only names what is refused elsewhere. So an edit can have many wrong programs, each in a
# function of its own, and they are all tried at once.
# rt tries the edits too, but keeps of what the prover said only the first line. So each is tried here again, over what is proved of its crate.

# programs EDIT: its wrong programs, each as 'NAME FACTS'.
programs() {
    awk -v name="$(basename -- "$1" .edit)" '
        /^wrong: / { name = substr($0, 8); wrong++ }
        /^refused by: ./ { print name, substr($0, 13); known++ }
        END { if (known != (wrong ? wrong : 1)) print name }' "$1"
}

# facts EDIT..: those that their wrong programs name, each as 'NAME FACT'.
facts() {
    local edit
    for edit in "$@"; do
        programs "$edit" | awk 'NF > 1 { name = $1; sub(/^[^ ]+ /, ""); count = split($0, each, /, */); for (i = 1; i <= count; i++) print name, each[i] }'
    done
}

# definitions EDIT: what its wrong programs change, each as 'NAME FILE:LINE', where that begins: a definition or a field of a record in specs/
# or proofs/, a function, a type or a constant in src/. What `use` brings in is none.
definitions() {
    awk -v name="$(basename -- "$1" .edit)" -v crate="${1%/must-fail/*}/" '
        function begins(line) {
            if (file ~ /\.rt$/) return line ~ /^ *(pub(\([a-z]+\))? )?(extern "C" )?(const )?(fn|struct|enum|const) /
            return line ~ /^((pub|abbrev|unfoldable|opaque) )*((record|data) |[^ ]+ : )/ || line ~ /^  (pub )?[^ ]+ : /
        }
        /^wrong: / { name = substr($0, 8) }
        /^file: / { file = substr($0, 7) }
        /^old: / {
            at = number = found = 0
            while (!found && (getline line <(crate file)) > 0) {
                number++
                if (begins(line)) at = number
                found = index(line, substr($0, 6))
            }
            close(crate file)
            if (line !~ /^(pub )?use /) print name, file ":" at
        }' "$1" | sort -u
}

# part EDIT NAME..: an edit with these of its wrong programs alone.
part() {
    awk -v name="$(basename -- "$1" .edit)" -v names="${*:2}" '
        BEGIN { count = split(names, each, " "); for (i = 1; i <= count; i++) wanted[each[i]] }
        /^wrong: / { name = substr($0, 8); if (name in wanted && file != "") print file }
        /^file: / { file = $0 }
        name in wanted' "$1"
}

# apply EDIT CRATE: changes the files in this folder as rt does. Each text must stand there once.
apply() {
    awk -v crate="$2/" '
        function fails(why) { print why; failed = 1; exit 1 }
        function whole(path,    text, line, status) {
            while ((status = (getline line <(crate path))) > 0) text = text line "\n"
            close(crate path)
            if (status < 0) fails("there is no " path)
            return text
        }
        function write() { if (file != "") { printf "%s", text >(crate file); close(crate file) } }
        /^file: / { write(); file = substr($0, 7); text = whole(file) }
        /^old: / { old = substr($0, 6) }
        /^new:/ {
            new = substr($0, 5)
            sub(/^ /, "", new)
            at = old == "" ? 0 : index(text, old)
            if (!at) fails(file " does not have: " old)
            if (index(substr(text, at + length(old)), old)) fails(file " has more than once: " old)
            text = substr(text, 1, at - 1) new substr(text, at + length(old))
            old = ""
            count++
        }
        END { if (!failed && count) write(); if (!count) exit 1 }' "$1"
}

# try LANE CRATE EDIT FOLDER [RENAMED]: what the prover says of the crate with this edit, in FOLDER/.log, and the proofs that it read, in
# FOLDER/proofs. The lane is a folder beside the scratch folder's crates: several tries at once have one each. Of the other crates it has what rt
# built of them. The last is a file of names that proofs are to have in place of others.
try() {
    local lane=$scratch/lanes/$1 crate=$2 edit=$3 folder=$4 each proof old new
    mkdir -p -- "$folder"
    rm -rf -- "$lane"
    mkdir -p -- "$lane/crates"
    cp -- "$scratch"/crates.txt "$lane"
    if [ -e "$scratch/HANDLES" ]; then cp -- "$scratch/HANDLES" "$lane"; fi
    for each in "$scratch"/crates/*; do
        mkdir -p -- "$lane/crates/${each##*/}/out"
        if [[ ${each##*/} == "$crate" ]]; then
            cp -R -- "$each"/{src,specs,proofs} "$lane/crates/$crate"
            if [ -d "$each/out/incremental" ]; then cp -R -- "$each/out/incremental" "$lane/crates/$crate/out"; fi
        else
            # rt never writes into what it has built, so that it can have two names
            cp -al -- "$each"/{src,specs,proofs} "$lane/crates/${each##*/}"
            if [ -d "$each/out/rlib" ]; then cp -al -- "$each/out/rlib" "$lane/crates/${each##*/}/out"; fi
        fi
    done
    if apply "$edit" "$lane/crates/$crate" >"$folder/.log" 2>&1; then
        while read -r proof old new; do
            sed -Ei "s/-$old([^[:alnum:]_]|$)/-$new\\1/g" "$lane/crates/$crate/$proof"/*.antt
        done <"${5:-/dev/null}"
        (cd -- "$lane/crates/$crate" && rt check --jobs 1) >"$folder/.log" 2>&1
    fi
    mv -- "$lane/crates/$crate/proofs" "$folder"
    rm -rf -- "$lane"
}

# was_tried FOLDER: the prover gave its verdict, and could read what was changed.
was_tried() {
    grep -qE '^logic=(not-proved$|proved )' "$1/.log" || { tail -n 40 -- "$1/.log" && return 1; }
    ! errors "$1" '(src|specs)/[^:]+' | lost | grep .
}

# were_tried FOLDER: each part of the edit was.
were_tried() {
    local part
    test -e "$1/1" || return 1
    for part in "$1"/[0-9]*; do was_tried "$part" || return 1; done
}

# in_lanes COMMAND..: calls it with a free lane before each line that is read, split into words: as many at once as RT_JOBS says, or else as there
# are processors, and 3 GB of memory for each.
in_lanes() {
    local lanes lane words count
    count=${RT_JOBS:-$(awk -v count="$(nproc)" '/^MemAvailable:/ { fit = int($2 / 3e6); if (fit < count) count = fit } END { print (count > 1 ? count : 1) }' /proc/meminfo)}
    mkfifo -- "$scratch/free" && exec {lanes}<>"$scratch/free" && rm -- "$scratch/free"
    seq "$count" >&"$lanes"
    while read -r -a words; do
        read -r -u "$lanes" lane
        {
            ("$@" "$lane" "${words[@]}")
            echo "$lane" >&"$lanes"
        } </dev/null &
    done
    wait
    exec {lanes}>&-
}

# errors FOLDER FILES: what the prover refused in these files of the tried crate, a pattern, for a reason of its own, as 'FILE:LINE:COLUMN MESSAGE'.
errors() {
    sed -nE "s#^(\./)?($2:[0-9]+:[0-9]+): error: #\2 #p" "$1/.log" | grep -vE '^[^ ]+ [0-9]+ declarations? that depends? on '
}

# lost: of errors, those by which nothing is refused but the text: it can't be read, where no declaration is named, or names what is not there.
lost() {
    awk '{
        said = $0
        sub(/^[^ ]+ /, "", said)
        named = sub(/^`[^`]*`: /, "", said)
        gsub(/`[^`]*`/, "", said)
        if (said != "" && (!named || said ~ /is not in scope|has no field|has no +that can be named|is no name|operand is missing|expected the end|cannot continue/)) print
    }'
}

# refused_function FOLDER CRATE NAME: where a fact that it asks for is not proved, by its answer or by the search that rattle tries. Each fact is
# asked for by a name, and has a declaration of that name as its answer: one that cites what is not there is lost, and says nothing. Nothing is
# said of any fact where a file can't be read, or the loops have lost their invariants.
refused_function() {
    local proof=proofs/${3//:://} found
    found=$(errors "$1" "$proof/(Invariants|Answers|Proof)\.antt")
    if lost <<<"$found" | grep -qE '^[^ ]+ [^`]|/(Invariants|Proof)\.antt:' || grep -qE "^note: (\./)?$proof/[^:]+: .* is no name that rattle asks for" "$1/.log"; then
        return 1
    fi
    grep -qE "^fn $2::$3: no proof: .*\`search\` did not prove \`" "$1/.log" && return
    grep -qE "^fn $2::$3: not proved" "$1/.log" &&
        grep . <<<"$found" | cut -d ' ' -f 2 | grep -qvxF -f <(lost <<<"$found" | cut -d ' ' -f 2 | grep . || printf ' \n')
}

# refused_laws FOLDER: the laws and the cases that are refused. A case is a field of its table's proof.
refused_laws() {
    errors "$1" 'proofs/[^:]+' | grep -vE '^[^ ]+/(Invariants|Answers|Proof)\.antt:' | awk -v folder="$1/" '
        # the name of the field that is given at this place, if one is
        function given(file, line, column,    text, name, is_first) {
            text = substr(lines[file, line], 1, column - 1)
            do {
                is_first = text ~ /^[^ ]/
                while (match(text, /(^|[ {;])[^ {};()]+ =( |$)/)) {
                    name = substr(text, RSTART, RLENGTH)
                    text = substr(text, RSTART + RLENGTH - 1)
                }
                text = lines[file, --line]
            } while (name == "" && !is_first && line > 0)
            gsub(/[ {;=]/, "", name)
            return name
        }
        {
            split($1, place, ":")
            sub(/^[^ ]+ /, "")
            if (!match($0, /^`[^`]+`: /)) next
            print substr($0, 2, RLENGTH - 4)
            if (!(place[1] in count)) while ((getline line <(folder place[1])) > 0) lines[place[1], ++count[place[1]]] = line
            print given(place[1], place[2], place[3])
        }' | grep . | sort -u
}

# refused FOLDER CRATE EDIT..: of the facts that the edits name, those by which the tried crate is refused.
refused() {
    local fact laws
    laws=$(refused_laws "$1")
    facts "${@:3}" | cut -d ' ' -f 2- | sort -u | while read -r fact; do
        if [[ $fact == 'fn '* ]]; then
            refused_function "$1" "$2" "${fact#fn }"
        else
            grep -qxF -- "$fact" <<<"$laws"
        fi && printf '%s\n' "$fact"
    done
}

# refused_by REFUSED EDIT NAME: the wrong program of this name is refused by each of the facts that it names; prints those it is not.
refused_by() {
    local named
    named=$(facts "$2" | sed -n "s/^$3 //p")
    test -n "$named" && ! grep -vxF -f <(printf '%s\n' "$1") <<<"$named"
}

# renamed FOLDER EDIT NAME..: rattle names what follows a condition by its text, as `if-m-gt0` and `returns-then-m-gt0`. Where only the comparison
# was changed in a function that these wrong programs name, its proof has lost its place by that alone, and finds it by the new names: these, each
# as 'PROOF OLD NEW', with the same on the left of the comparison.
renamed() {
    local name proof
    for name in "${@:3}"; do
        facts "$2" | sed -n "s/^$name fn //p"
    done | while read -r proof; do
        proof=proofs/${proof//:://}
        errors "$1" "$proof/(Invariants|Answers|Proof)\.antt" | awk -v proof="$proof" '
            function left(name) { return match(name, /-(lt|le|gt|ge|eq|ne)(-|[0-9])/) ? substr(name, 1, RSTART) : "" }
            match($0, /has no field `if-[^`]*` \(nearest: \.if-[^,)]*/) {
                split(substr($0, RSTART, RLENGTH), name, /`if-|` \(nearest: \.if-/)
                if (left(name[2]) != "" && left(name[2]) == left(name[3])) print proof, name[2], name[3]
            }'
    done | sort -u
}

# try_whole LANE CRATE EDIT FOLDER: tries all its wrong programs at once, in FOLDER/1, and leaves in FOLDER/by the facts by which they are refused.
# What a function asks for is not always tried where it calls one that is refused, and its proof can have lost its place by the name of a condition.
# So those that are not refused by what they name are tried again without the others and with the new names, in FOLDER/2 and so on, as long as
# they grow fewer or get new names.
try_whole() {
    local lane=$1 crate=$2 edit=$3 folder=$4 at=0 left=() names were name facts
    mkdir -p -- "$folder"
    mapfile -t left < <(programs "$edit" | cut -d ' ' -f 1)
    : >"$folder/by"
    : >"$folder/renamed"
    while ((${#left[@]} > 0)); do
        at=$((at + 1))
        were=${#left[@]}
        names=$(wc -l <"$folder/renamed")
        part "$edit" "${left[@]}" >"$folder/edit"
        try "$lane" "$crate" "$folder/edit" "$folder/$at" "$folder/renamed"
        refused "$folder/$at" "$crate" "$edit" >>"$folder/by"
        left=()
        while read -r name facts; do
            refused_by "$(cat -- "$folder/by")" "$edit" "$name" >"$folder/lacking" || left+=("$name")
        done < <(programs "$edit")
        renamed "$folder/$at" "$edit" "${left[@]}" >>"$folder/renamed"
        if ((${#left[@]} == were && $(wc -l <"$folder/renamed") == names)); then break; fi
    done
    printf '%s\n' "$at" >"$folder/parts"
}
