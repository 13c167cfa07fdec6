# The programs and libraries of dist/: whether they are built from these sources, and which of them run on this system. Scripts that
# set `top`, the repository's folder, read it. It needs a POSIX shell, coreutils, findutils and grep.

manifest=$top/dist/MANIFEST

# Prints the checksum of everything that the programs are built from, as dist/MANIFEST records it.
sum_of_sources() {
    (
        cd "$top" || exit 1
        find crates/*/src crates/*/specs crates/*/proofs crates.txt HANDLES -type f 2>/dev/null | LC_ALL=C sort |
            xargs sha256sum | sha256sum | cut -c 1-64
    )
}

# Succeeds if dist/ is built from these sources.
is_of_sources() {
    [ -f "$manifest" ] && grep -qxF "sources $(sum_of_sources)" "$manifest"
}

# Succeeds if the file $1 of dist/ has the checksum that dist/MANIFEST records for it.
is_intact() {
    [ -f "$top/dist/$1" ] && grep -qxF "$(sha256sum <"$top/dist/$1" | cut -c 1-64)  $1" "$manifest"
}

# Sets `faulty` to the first program in the folder $1 of dist/ that isn't the one of dist/MANIFEST, or to nothing.
find_faulty() {
    for each in hirgrep hirhead hirscan; do
        faulty=$1/$each
        is_intact "$faulty" && [ -x "$top/dist/$faulty" ] || return 0
    done
    faulty=''
}

# Sets `running` to the folders of dist/ whose programs run here, and `why` and `advice` if there is none. A program finds out itself:
# it fails if the processor lacks what it needs, and doesn't start if the C library is too old.
find_running() {
    running='' why=''
    for folder in x86_64-v3-linux x86_64-linux; do
        find_faulty "$folder"
        if [ -n "$faulty" ]; then
            echo "$asked: dist/$faulty is missing, or isn't the file that dist/MANIFEST records; git checkout dist restores it" >&2
            why='programs are missing from dist/' advice='git checkout dist restores them'
        elif "$top/dist/$folder/hirgrep" --version >/dev/null 2>&1; then
            running="$running $folder"
        fi
    done
    [ -n "$why" ] || why=$needs advice='run it on such a system'
}
needs='the programs in dist/ need Linux on x86-64 with SSE4.2, and glibc 2.34 or later'

# Sets `system` to words that differ between two systems that share this folder, as a host and its containers do.
name_system() {
    machine='' release=''
    [ -r /etc/machine-id ] && read -r machine </etc/machine-id
    [ -r /etc/os-release ] && read -r release </etc/os-release
    system="$machine $release"
}

# Sets `note` to the file that records that dist/ was checked: $1 is 1 for the one in the repository, and 2 for the one in the user's
# cache, for where nothing can be written in the repository.
name_note() {
    if [ "$1" = 1 ]; then
        note=$top/dist/out/checked
        return 0
    fi
    cache=${XDG_CACHE_HOME:-${HOME:+$HOME/.cache}}
    [ -n "$cache" ] || return 1
    note=$cache/hanneddois/checked$(printf %s "$top" | tr / +)
}

# Sets `running` to the folders that the note names, if it was written on this system and nothing changed since: no file or folder
# of the sources, of the definitions or of dist/ is newer. Proofs change no program, and to look through their 1,200 folders would take
# longer than all else.
read_note() {
    [ -f "$note" ] && { read -r running && read -r noted; } <"$note" || return 1
    [ "$noted" = "$system" ] || return 1
    changed=$(find "$manifest" "$top"/dist/x86_64* "$top"/crates/*/src "$top"/crates/*/specs \
        "$top/crates.txt" "$top/HANDLES" -newer "$note" 2>/dev/null)
    [ -z "$changed" ]
}

# Begins a note where one can be written. What changes from now on is newer than it.
begin_note() {
    for place in 1 2; do
        name_note "$place" && mkdir -p "${note%/*}" 2>/dev/null && touch "$note.$$" 2>/dev/null && return
    done
    note=''
}

# Writes the note with the time at which it was begun, or drops it if no program runs.
end_note() {
    [ -n "$note" ] || return 0
    if [ -n "$running" ]; then
        printf '%s\n%s\n' "$running" "$system" >"$note.$$.new" && touch -r "$note.$$" "$note.$$.new" && mv -f "$note.$$.new" "$note"
    fi
    rm -f "$note.$$" "$note.$$.new"
}

# Checks dist/ in full, which takes about a fifth of a second. Sets `running`, or, if no program of it can answer, `why` and `advice`.
check_all() {
    running='' why='dist/ is built from other sources' advice='undo the changes to the sources, or take a commit whose dist/ is newer'
    if [ ! -f "$manifest" ]; then
        why='there is no dist/MANIFEST' advice='take a commit that has dist/'
        return 1
    fi
    begin_note
    is_of_sources && find_running
    end_note
    [ -n "$running" ]
}

# Sets `ready` to the folder of dist/ whose programs answer here, or fails and sets `why` and `advice`. $1 is the name of who asks.
choose_ready() {
    asked=$1 ready='' why='' advice=''
    name_system
    { name_note 1 && read_note; } || { name_note 2 && read_note; } || check_all || return 1
    for ready in $running; do
        [ "$ready" = x86_64-v3-linux ] && ! has_wide_vectors && continue
        return 0
    done
    ready='' why=$needs advice='run it on such a system'
    return 1
}
