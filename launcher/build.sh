# Tells whether the program is the one of these sources, and proves and builds it. `ats`, `install` and `.ci/run` read
# this file; they set `top` to the folder of the repository, `program` to the program, and define `say`.

# The program in a tree. `rt run` writes the stamp once the program is built from proved crates, and removes it before
# it builds anew. `rt ci` links the program of proved crates as well, and writes none.
built=crates/ats_cli/out/ats_cli
stamp=$built.stamp

# What is known of the program, a line each: the checksum of it and of its sources, the kit that built it, and the
# commit of its sources.
origin=$program.origin

# The state of the sources, the program and the kit at which the program was last found to be theirs.
seen=$program.seen

# The lines of a crates.txt of the crates that the program stands on, itself included.
needed_lines() {
    awk -F: '
        /^#/ || NF < 2 { next }
        { split($1, words, " "); below[words[1]] = $2; line[words[1]] = $0 }
        END { visit("ats_cli") }
        function visit(name,   names, count, i) {
            if (name in seen || !(name in below)) return
            seen[name] = 1
            print line[name]
            count = split(below[name], names, " ")
            for (i = 1; i <= count; i++) visit(names[i])
        }
    ' "$1"
}

# The names of such lines.
names_of() {
    printf '%s\n' "$1" | sed 's/[ :].*//'
}

# The checksum of what the program in a tree is built from, and of the files named: sum_of TREE FILE.. Times, places
# and other files count nothing. It fails where any of it cannot be read.
sum_of() (
    cd "$1" || exit 1
    shift
    needed=$(needed_lines crates.txt) && [ -n "$needed" ] || exit 1
    set -- HANDLES "$@"
    for name in $(names_of "$needed"); do
        for part in src specs proofs; do
            [ ! -d "crates/$name/$part" ] || set -- "$@" "crates/$name/$part"
        done
    done
    sums=$(
        LC_ALL=C find -L "$@" -type f \( -name '*.rt' -o -name '*.antt' -o -name HANDLES -o -name ats_cli \) \
            -exec sha256sum {} +
    ) && sum=$(printf '%s\n' "$needed" "$sums" | LC_ALL=C sort | sha256sum) && echo "${sum%% *}"
)

# Notes as `rt` the path of that command, empty where there is none, and as `kit_file` the file that names its kit,
# empty where that is not in its place.
find_kit() {
    rt=$(command -v rt)
    kit_file=
    case $rt in
        /*)
            kit_file=$(readlink -f -- "$rt")
            kit_file=${kit_file%/*/*}/KIT-ID
            [ -f "$kit_file" ] || kit_file=
            ;;
    esac
}

# Notes as `kit` what the kit of `rt` calls itself, empty where there is none.
read_kit() {
    kit=
    if [ -n "$kit_file" ]; then
        { IFS= read -r kit <"$kit_file"; } 2>/dev/null
    elif [ -n "$rt" ]; then
        kit=$(rt version </dev/null 2>/dev/null)
    fi
}

# Notes as `crates` the names of the crates that the program stands on, in one line. It fails where there are none.
find_crates() {
    lines=$(needed_lines "$top/crates.txt") && crates=$(names_of "$lines") && [ -n "$crates" ] && crates=$(echo $crates)
}

# Prints the kit, and the state of all files that decide whether the program is right: those of the sources with their
# folders, the program, and what is noted of it. The state of a file is when it was last changed in any way (%C) and
# when its contents were (%T), its size, device and number, and its name.
print_state() (
    printf '%s\n' "$crates" "$rt" "$kit_file" "$kit"
    cd "$top" || exit 1
    parts=
    for name in $crates; do
        for part in src specs proofs; do
            [ ! -d "crates/$name/$part" ] || parts="$parts crates/$name/$part"
        done
    done
    export LC_ALL=C
    exec find -L HANDLES crates.txt $parts "$built" "$built.origin" ${rt:+"$rt"} -printf '%C@:%T@:%s:%D:%i:%p\n'
) 2>/dev/null

# Whether the state is the one at which the program was last found right.
is_seen() {
    {
        { IFS= read -r crates && IFS= read -r rt && IFS= read -r kit_file; } <"$seen"
    } 2>/dev/null || return 1
    [ "$(command -v rt)" = "$rt" ] || return 1
    read_kit
    print_state | cmp -s - "$seen" 2>/dev/null
}

# Whether no later change can hide behind a state, which was written to this file before the checksum was reckoned.
#
# On the file systems below whatever changes the contents of a file sets the time of its last change, to that of the
# clock, and no call sets it otherwise; another file that is put in its place has another number. And one machine alone
# writes there. Others may keep no such time, or tell of another machine's writing only after a while. These times have
# to be over two seconds before the state was written: then what is changed from there on gets a time that is none of
# them, also where they are counted in ticks or whole seconds. What is left is a file that stays mapped into memory,
# which may be written through it without a new time, and a clock that is set back to the very tick. The command rt may
# lie elsewhere, since the name of its kit is read at each call.
is_lasting() {
    case $(stat -f -c %T -- "$1" 2>/dev/null) in
        ext2/ext3 | xfs | btrfs | tmpfs | zfs | f2fs | bcachefs | overlayfs) ;;
        *) return 1 ;;
    esac
    LC_ALL=C awk -F: -v written="$(stat -c %Y -- "$1")" -v device="$(stat -c %d -- "$1")" '
        FNR < 5 || $6 ~ /^\// { next }
        $1 + 0 >= written - 2 || $4 != device { fleeting = 1; exit }
        END { exit fleeting }
    ' "$1"
}

# Whether the program is there and is the one of these sources, and of the kit where there is one. Where that cannot be
# told, it is not run. The checksum is reckoned only where the state is not one at which it was found right.
is_built() {
    [ -x "$program" ] && [ -f "$origin" ] || return 1
    ! is_seen || return 0
    find_kit
    read_kit
    new=$seen.$$
    { find_crates && print_state >"$new" && whole=yes || whole=; } 2>/dev/null
    if ! sum=$(sum_of "$top" "$built") || [ -z "$sum" ]; then
        rm -f "$new"
        say 'the sources could not be read (by find and sha256sum), so it is not known whether the program is theirs'
        exit 8
    fi
    noted= noted_kit= other_kit=
    { IFS= read -r noted && IFS= read -r noted_kit; } <"$origin"
    right=no
    if [ "$sum" = "$noted" ] && { [ -z "$rt" ] || [ "$kit" = "$noted_kit" ]; }; then
        right=yes
        [ -z "$whole" ] || ! is_lasting "$new" || mv -fT -- "$new" "$seen" 2>/dev/null
    elif [ "$sum" = "$noted" ]; then
        other_kit=yes
    fi
    rm -f "$new"
    [ "$right" = yes ]
}

# The commit of the sources of the program in a tree, and whether they were changed since.
commit_of() (
    unset GIT_DIR GIT_WORK_TREE GIT_INDEX_FILE
    commit=
    if [ -e "$1/.git" ] && cd "$1" && commit=$(git rev-parse -q --verify HEAD 2>/dev/null); then
        set -- HANDLES crates.txt
        for name in $(names_of "$(needed_lines crates.txt)"); do
            for part in src specs proofs; do
                set -- "$@" "crates/$name/$part/*.rt" "crates/$name/$part/*.antt"
            done
        done
        # Files that git does not know, or passes over, are sources as any others.
        set -- --porcelain --untracked-files=all --ignored -- "$@"
        if changes=$(git --no-optional-locks status "$@" 2>/dev/null); then
            [ -z "$changes" ] || commit="$commit, and changes"
        else
            commit=unknown
        fi
    fi
    echo "${commit:-unknown}"
)

# Notes that the program of a tree was built from the sources there, which are of this commit: note_origin TREE COMMIT.
# Without a commit it is that of the tree.
note_origin() {
    sum=$(sum_of "$1" "$built") && [ -n "$sum" ] || return 1
    find_kit
    read_kit
    printf '%s\n%s\n%s\n' "$sum" "$kit" "${2:-$(commit_of "$1")}" >"$1/$built.origin"
}

# Which program this is: the commit and the kit that it was built from.
version() {
    if ! [ -x "$program" ]; then
        echo 'ats, not built: the next command proves and builds it'
        return
    fi
    commit=$(sed -n 3p "$origin" 2>/dev/null)
    kit=$(sed -n 2p "$origin" 2>/dev/null)
    printf 'ats, commit %s\nkit %s\n' "${commit:-unknown}" "${kit:-unknown}"
}

# How many crates are proved side by side: one a processor, as far as memory goes, each of which may take 2 GB.
lanes() {
    awk -v processors="$(nproc)" '
        $1 == "MemAvailable:" { room = int($2 / 2000000) }
        END { lanes = room < processors ? room : processors; print lanes < 1 ? 1 : lanes }
    ' /proc/meminfo
}

# Says which crates are proved, from what rt prints of each that it has checked. Above one that is not in the layout of
# `rt fmt` nothing is proved yet, but by the build that follows, one crate after the other.
tell_progress() {
    name='a crate'
    while IFS= read -r line; do
        case $line in
            '== '*) name=${line#== } ;;
            'logic=proved '*) say "proved $name, after $(($(date +%s) - began)) s" ;;
            'rt: run rt fmt '*) say "$name is not in the layout of rt fmt" ;;
        esac
    done
}

# Puts the crates that the program stands on into a folder of their own, with what earlier runs left of each, since
# `rt all` takes all crates that it finds. The program's own crate stands beside that folder, where `rt all` does not
# find it: it is proved when it is built, and so just once.
set_apart() {
    mkdir "$tree" "$tree/crates" && cp -p "$top/HANDLES" "$tree/" || return 1
    needed_lines "$top/crates.txt" >"$notes/crates.txt" || return 1
    sed '/^ats_cli[ :]/d' "$notes/crates.txt" >"$tree/crates.txt" || return 1
    needed=$(names_of "$(cat "$notes/crates.txt")")
    for name in $needed; do
        place=$tree/crates/$name
        [ "$name" != ats_cli ] || place=$notes/$name
        mkdir "$place" || return 1
        for part in src specs proofs; do
            [ ! -d "$top/crates/$name/$part" ] || cp -Rp "$top/crates/$name/$part" "$place/" || return 1
        done
        [ ! -d "$top/crates/$name/out" ] || mv "$top/crates/$name/out" "$place/" || return 1
    done
}

# Puts the program's crate to the others.
join_program() {
    mv "$notes/ats_cli" "$tree/crates/" && mv "$notes/crates.txt" "$tree/crates.txt"
}

# Puts what is left of each crate back to its sources, and removes that folder. It fails where some cannot be put back,
# which then stays where it is. What moves from another file system has another name until it is whole.
put_back() {
    left=
    for name in $needed; do
        place=$tree/crates/$name
        [ -d "$place" ] || place=$notes/$name
        if [ -d "$place/out" ] && [ ! -d "$top/crates/$name/out" ]; then
            new=$top/crates/$name/out.new
            rm -rf "$new"
            if ! mv "$place/out" "$new" || ! mv "$new" "$top/crates/$name/out"; then
                left=$notes
            fi
        fi
    done
    if [ -n "$left" ]; then
        say "what was built could not be put back into $top, and is left in $left"
        return 1
    fi
    rm -rf "$notes"
}

# Proves the crates below the program, several side by side, and makes a library of each. `rt all test` does so to all;
# `rt all check` makes none of a crate on which no other stands there. None of these crates has tests. What fails is
# told by the build that follows, which proves what is not proved here.
prove_crates() {
    (cd "$tree" && rt all test --jobs "$(lanes)" </dev/null 2>&1 | tell_progress) 9<&- &
    working=$!
    wait "$working"
    working=
}

# Proves and builds the program itself. `rt run` also runs it, here with no words and its output discarded, and then
# ends with the program's status. So whether it was built is seen by the line with which rt starts it, and by the stamp.
build_program() {
    (cd "$tree/crates/ats_cli" && exec rt run </dev/null >/dev/null 2>"$notes/log") 9<&- &
    working=$!
    wait "$working"
    status=$?
    working=
    grep -q '^rt: running ' "$notes/log" && [ -f "$tree/$stamp" ]
}

# Stops what runs in the background, with what it started.
stop_working() {
    [ -z "$working" ] || kill $(descendants "$working") 2>/dev/null
}

# A process and all below it.
descendants() {
    echo "$1"
    for child in $(ps -o pid= --ppid "$1" 2>/dev/null); do
        descendants "$child"
    done
}

# Waits until no other call builds, and goes on alone. The lock is on a file that is always there, and ends with this
# call.
stand_alone() {
    exec 9<"$top/crates.txt"
    if ! command -v flock >/dev/null || flock -n 9; then
        return
    fi
    say 'another call is building the program; this one waits for it'
    flock 9
}

# Proves and builds the program, unless another call has done so meanwhile. It says so where the environment names one.
build() {
    [ -z "${ATS_PROGRAM-}" ] ||
        say 'ATS_PROGRAM is set, by which scripts and tools run another program; this one goes by its sources alone'
    if ! command -v rt >/dev/null; then
        say 'the program is missing or not that of these sources, and the command rt, which proves and builds it,' \
            'was not found'
        say "what that is, and where it is looked for: $top/README.md"
        exit 7
    fi
    stand_alone
    is_built || build_alone
    exec 9<&-
}

build_alone() {
    if ! notes=$(mktemp -d 2>/dev/null); then
        say 'no folder for temporary files could be made, so the program was not built'
        exit 8
    fi
    tree=$notes/tree working= needed=
    trap put_back EXIT
    trap 'stop_working; say "the build was stopped; the next call goes on with it"; exit 8' HUP INT TERM
    [ -z "${other_kit-}" ] || say "rt is of the kit $kit, and ${noted_kit:-an unknown one} built the program"
    say 'proving and building the program, crate by crate; from nothing this takes 25 to 40 minutes on four processors'
    began=$(date +%s)
    commit=$(commit_of "$top")
    if ! set_apart; then
        say 'the crates could not be put into a folder of their own, so the program was not built'
        exit 8
    fi
    [ "$commit" = "$(commit_of "$top")" ] || commit=unknown
    prove_crates
    say 'proving and building the program itself'
    if ! join_program || ! build_program; then
        tell_failure
        exit 8
    fi
    # The sources that count are those which were set apart; what was edited since is built at the next call.
    note_origin "$tree" "$commit" ||
        say 'what the program was built from could not be noted; the next call builds it again'
    say "built in $(($(date +%s) - began)) s"
    put_back || { trap - EXIT && exit 8; }
    trap - EXIT HUP INT TERM
}

# Lines of rt that say nothing of a failure.
telling='^(statements|library|logic|crate|axioms|struct|enum|impl|fn) '

# Says why the program was not built, by the last lines of rt.
tell_failure() {
    [ ! -f "$notes/log" ] || grep -Ev "$telling" "$notes/log" | tail -n 20 >&2
    say "the program was not built, after $(($(date +%s) - began)) s"
    [ "${status:-0}" -le 128 ] || say 'a signal stopped it; the next call goes on with it'
}
