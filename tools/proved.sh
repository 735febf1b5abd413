# Sourced by ./jcard, ./test and some tools: whether the program is the one that the toolchain proved, from the sources as
# they are now; and its proof. It uses $here, the top of the tree.
#
# The stamp beside the program says so. It has two checksums: one over the sources of the crates that the program stands
# on, crates.txt and the kit's identity; and one over the program. It is written only where the toolchain said "passed".
# Where it refused these sources, the file jcard.refused has the first checksum.
program=$here/crates/jcard/out/jcard
stamp=$program.proved
refused=$program.refused
# What was found beside the stamp is noted, for tools/unchanged: the first checksum, of the sources as they are; and, of the program, that of the
# sources that it is proved of.
noted_sources=crates/jcard/out/jcard.sources
noted_program=crates/jcard/out/jcard.current
rt=$(type -P "${RT:-rt}" || true)
rt=${rt:+$(realpath "$rt")}

# What `rt version` prints. A kit has that line in a file, and reading it takes a hundredth of the time.
kit_identity() {
    [ -n "$rt" ] && { cat "${rt%/*}/../KIT-ID" 2>/dev/null || "$rt" version; }
}

has_toolchain() {
    [ -n "$rt" ] || { echo "jcard: the toolchain's command rt is not on the path" >&2; return 1; }
}

# Prints this user's folder for what is made once and kept. Where there is none at home, it is among the temporary files.
cache_folder() {
    local folder
    for folder in "${XDG_CACHE_HOME:-${HOME:-/nonexistent}/.cache}/jcard" "${TMPDIR:-/tmp}/jcard-$(id -u)"; do
        if (umask 077 && mkdir -p "$folder") 2>/dev/null && [ ! -L "$folder" ] && [ -O "$folder" ] && [ -w "$folder" ]; then
            printf '%s\n' "$folder"
            return
        fi
    done
    echo "jcard: there is no folder to keep things in: neither ~/.cache nor the folder of temporary files can be written" >&2
    return 1
}

# A crate and those that it stands on, by crates.txt.
crates_of() {
    awk -F: -v wanted="$1" '
        function take(name, names, count, i) {
            if (name in taken || !(name in libraries)) return
            taken[name]
            print name
            count = split(libraries[name], names, " ")
            for (i = 1; i <= count; i++) take(names[i])
        }
        { sub(/#.*/, ""); split($1, words, " "); libraries[words[1]] = $2 }
        END { take(wanted) }
    ' "$here/crates.txt"
}

# The folders, from $here, in which the sources of a crate and of those that it stands on may lie.
places_of() {
    local crate part
    for crate in $(crates_of "$1"); do
        for part in src specs proofs; do
            echo "crates/$crate/$part"
        done
    done
}

# Those of them that are there.
folders_of() {
    local place
    for place in $(places_of "$1"); do
        [ ! -d "$here/$place" ] || echo "$place"
    done
}

checksum_of_sources() {
    local folders
    mapfile -t folders < <(folders_of jcard)
    [ ${#folders[@]} -gt 0 ] && (
        set -o pipefail
        cd "$here" && {
            kit_identity && sha256sum crates.txt && find "${folders[@]}" ! -type d -exec sha256sum {} + | LC_ALL=C sort
        } | sha256sum
    )
}

checksum_of_program() {
    sha256sum <"$program"
}

# Prints what a command finds of files, and notes it as long as they stay as they are. They are listed before it reads them: one that changes
# meanwhile is not as it was listed. $1 is the record, and $2 a function that prints the files' names, a zero byte after each.
find_and_note() {
    local record=$here/$1 names=$2 since=$EPOCHSECONDS listing found
    shift 2
    listing=$({ mkdir -p "${record%/*}" && mktemp "$record.XXXXXX"; } 2>/dev/null) || listing=""
    [ -z "$listing" ] || (set -o pipefail; "$names" | "$here/tools/unchanged" --list "$since" >"$listing") 2>/dev/null || : >"$listing"
    found=$("$@") || { rm -f "$listing"; return 1; }
    if [ -s "$listing" ]; then
        printf '%s\n' "$found" | cat - "$listing" >"$listing.noted" && mv "$listing.noted" "$record"
    fi
    rm -f "$listing"
    printf '%s\n' "$found"
}

# Prints what is noted of files that are as they were; the status is 1 where one is not. Without Perl none is known to be.
noted_of() {
    "$here/tools/unchanged" "$@" 2>/dev/null
}

# The names of the sources, and of what says which files these are.
names_of_sources() {
    local places folders
    mapfile -t places < <(places_of jcard)
    mapfile -t folders < <(folders_of jcard)
    printf '%s\0' crates.txt tools/proved.sh tools/unchanged "${places[@]}"
    cd "$here" && find "${folders[@]}" -mindepth 1 -print0
}

names_of_program() {
    printf '%s\0' "${program#"$here/"}" "${stamp#"$here/"}"
}

# Prints the checksum of the sources as it was noted, where they are unchanged, and else computes it.
known_checksum_of_sources() {
    noted_of "$noted_sources" || find_and_note "$noted_sources" names_of_sources checksum_of_sources
}

# Prints the checksum of the sources that the stamp has, where it is the stamp of this program.
stamped_checksum() {
    local sources made
    made=$(checksum_of_program) && sources=$(head -n 1 "$stamp") && [ "$(cat "$stamp")" = "$sources"$'\n'"$made" ] && printf '%s\n' "$sources"
}

# Whether the program is proved, and of these sources. Where one of the two is not known, it is not.
is_current() {
    local sources proved
    [ -x "$program" ] && [ -s "$stamp" ] || return 1
    ! noted_of "$noted_sources" "$noted_program" >/dev/null || return 0
    sources=$(known_checksum_of_sources) && proved=$(noted_of "$noted_program" || find_and_note "$noted_program" names_of_program stamped_checksum) &&
        [ "$sources" = "$proved" ]
}

# Notes that the toolchain proved the program from the sources with this checksum, unless they have changed since.
note_proved() {
    local sources made
    if ! sources=$(checksum_of_sources) || [ "$1" != "$sources" ]; then
        echo "jcard: the sources changed while they were proved" >&2
        return 1
    fi
    made=$(checksum_of_program) && printf '%s\n%s\n' "$sources" "$made" >"$stamp" && rm -f "$refused"
}

# Whether the toolchain refused the sources as they are, when they were last proved.
is_refused() {
    [ -s "$refused" ] && [ "$(cat "$refused")" = "$(known_checksum_of_sources)" ]
}

# One proof at a time. ./jcard --prove and ./test hold the lock of the folder crates/ while they prove, as descriptor 9,
# which nothing that they start inherits. `rt` holds that of each crate's folder that it works in.
begin_proof() {
    exec 9<"$here/crates"
    # 99: another has it. A file system without locks has no turns.
    flock -n -E 99 9 || [ $? -ne 99 ] || {
        echo "jcard: waiting for the proof that is under way here to end" >&2
        flock 9
    }
}

end_proof() {
    exec 9<&-
}

is_proof_under_way() {
    local folder
    for folder in crates crates/jcard; do
        flock -s -n -E 99 "$here/$folder" true || [ $? -ne 99 ] || return 0
    done
    return 1
}

# Copies what the program is made from into a tree of its own: its crates, their lines of crates.txt, and HANDLES.
copy_for_proof() {
    local crates
    mapfile -t crates < <(crates_of jcard)
    # rt wants the top of a repository.
    mkdir -p "$1/.git" "$1/crates" &&
        tar -C "$here/crates" --anchored --no-wildcards-match-slash --exclude='*/out' --exclude='*/must-fail' --exclude='*/planted' -cf - "${crates[@]}" |
        tar -C "$1/crates" -xf - &&
        awk -F: -v names="${crates[*]}" 'BEGIN { split(names, list, " "); for (i in list) wanted[list[i]] } { split($1, words, " ") } words[1] in wanted' \
            "$here/crates.txt" >"$1/crates.txt" &&
        { [ ! -e "$here/HANDLES" ] || cp "$here/HANDLES" "$1/HANDLES"; }
}

# Proves and builds the program in a copy of its crates by the toolchain's gate, in as many lanes as there are processors and
# memory, over what earlier gates on this machine kept. Only then it takes the place of an earlier one.
prove() {
    local room=$1 sources last status
    sources=$(checksum_of_sources) && copy_for_proof "$room/tree" && [ "$(checksum_of_sources)" = "$sources" ] || return 1
    (cd "$room/tree" && "$rt" ci 2>&1 </dev/null 9>&-) | "$here/tools/dev/clock" "$room/tree" --log "$room/log" >&2 9>&-
    status=${PIPESTATUS[0]}
    last=$(tail -n 1 "$room/log")
    if [ "$status" -eq 0 ] && [[ $last =~ ^[1-9][0-9]*' passed, 0 failed'$ ]] && [ -x "$room/tree/crates/jcard/out/jcard" ]; then
        mkdir -p "${program%/*}" && cp "$room/tree/crates/jcard/out/jcard" "$program.new" && rm -f "$stamp" &&
            mv "$program.new" "$program" && note_proved "$sources"
        return
    fi
    [[ ! $last =~ ^[0-9]+' passed, '[1-9][0-9]*' failed'$ ]] || { mkdir -p "${program%/*}" && echo "$sources" >"$refused"; }
    return 1
}

# Proves the program unless that is done. Two of these take turns.
ensure_proved() {
    local cache
    is_current && return
    has_toolchain && cache=$(cache_folder) || return 1
    begin_proof
    (
        is_current && exit
        rm -f "$refused"
        echo "jcard: proving and building the program; the first time this takes long" >&2
        room=$(mktemp -d "$cache/proof-XXXXXX") || exit 1
        trap 'rm -rf "$room"' EXIT
        trap 'exit 130' INT TERM HUP
        prove "$room" || { echo "jcard: the toolchain did not prove the program" >&2; exit 1; }
    )
}
