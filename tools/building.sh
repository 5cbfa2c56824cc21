# Building, testing and installing: what ./zaldrum reads where it stands in the repository. It works in $here and uses
# fail, make_room and tidy.
#
# A program built of certain sources is built/NAME-SUM/NAME, with SUM the checksum of these sources and of the kit. So
# a program is either there, whole, for just the present sources, or not at all.

programs='judge inspect board handover'
built=$here/built

need_toolchain() {
    command -v rt >/dev/null 2>&1 ||
        fail "${1:+$1 is not built yet, and }the Rattle toolchain is missing: the command 'rt' is not on the PATH"
}

# Prints the names of the crates that programs stand on, the programs among them, in a line, and then the lines of
# crates.txt for them.
lines_of() {
    awk -v wanted="$*" '
        function take(name,   used, count, i) {
            if (!(name in uses) || name in taken) return
            taken[name] = 1
            count = split(uses[name], used, " ")
            for (i = 1; i <= count; i++) take(used[i])
        }
        { sub(/#.*/, "") }
        /:/ {
            split(substr($0, 1, index($0, ":") - 1), head, " ")
            uses[head[1]] = substr($0, index($0, ":") + 1)
            line[head[1]] = $0
            name[++all] = head[1]
        }
        END {
            count = split(wanted, first, " ")
            for (i = 1; i <= count; i++) take(first[i])
            for (i = 1; i <= all; i++) if (name[i] in taken) {
                names = names " " name[i]
                lines = lines "\n" line[name[i]]
            }
            print names lines
        }' "$here/crates.txt"
}

# Sets crates, lines and handles to what these programs stand on.
stand_on() {
    found=$(lines_of "$@") || fail "$here/crates.txt cannot be read"
    crates=${found%%
*}
    lines=${found#"$crates"}
    for one; do
        case "$crates " in *" $one "*) ;; *) fail "crates.txt has no line for the program $one" ;; esac
    done
    handles=
    [ ! -f "$here/HANDLES" ] || handles=$(cat -- "$here/HANDLES")
}

# Finds the files that these crates are built of, below crates/ of a folder: all but what is made and what only the
# gate reads. What find is to do with them follows.
sources_in() {
    (cd -- "$1/crates" && shift && find $crates -regex '[^/]*/\(out\|must-fail\)' -prune -o ! -type d "$@")
}

# Sets kit_now to the kit's line. The toolchain is asked again only where the command rt, or the kit's name beside it,
# is another file than before. With no toolchain it is the kit that built last.
ask_kit() {
    kit_now=
    if rt=$(command -v rt); then
        rt=$(readlink -f -- "$rt")
        files=$(stat -c '%n %i %s %y %z' -- "$rt" "${rt%/*}/../KIT-ID" 2>/dev/null)
        [ ! -f "$built/kit" ] || read -r kit_now <"$built/kit"
        [ -n "$kit_now" ] && [ "$kit_now
$files" = "$(cat -- "$built/kit")" ] && return
        kit_now=$(rt version </dev/null) || fail "the toolchain does not work: 'rt version' failed"
        keep kit "$kit_now
$files"
    elif [ -f "$built/kit" ]; then
        read -r kit_now <"$built/kit"
    fi
}

# Keeps a text in built/; where that cannot be written, the next call has to look again.
keep() {
    mkdir -p -- "$built" && printf '%s\n' "$2" >"$built/$1.$$" && mv -- "$built/$1.$$" "$built/$1" ||
        rm -f -- "$built/$1.$$"
} 2>/dev/null

# Prints the checksum of the sources in a folder, of what crates.txt says of them, and of the kit. It fails where not
# each source has its sum: a sum that leaves one out would be that of other sources too.
sum_in() {
    sums=$(sources_in "$1" -print0 | LC_ALL=C sort -z | (cd -- "$1/crates" && xargs -0 sha256sum)) &&
        number=$(sources_in "$1" -printf x) && [ -n "$number" ] &&
        [ "$(printf '%s\n' "$sums" | grep -cE '^\\?[0-9a-f]{64} ')" -eq ${#number} ] &&
        whole=$(printf '%s\n' "$kit_now" "$handles" "$lines" "$sums" | sha256sum) && [ ${#whole} -ge 64 ] &&
        printf '%.32s\n' "$whole"
}

# Sets program to where it is when it is built of the present sources, and says whether it is there. Their contents
# are read only where a name, size or time is another than when they were last read. What changed within the last
# seconds may change again with the same time, so nothing is kept of that.
find_built() {
    stand_on "$1"
    ask_kit
    files=$(sources_in "$here" -printf '%p %s %T@ %C@ %i\n') || fail "the sources of $1 cannot be read"
    files="$kit_now
$handles
$lines
$files"
    sum=
    [ ! -f "$built/$1.seen" ] || read -r sum <"$built/$1.seen"
    if [ -z "$sum" ] || [ "$sum
$files" != "$(cat -- "$built/$1.seen")" ]; then
        sum=$(sum_in "$here") || fail "no checksum can be made of the sources of $1"
        [ -n "$(sources_in "$here" -newerct '2 seconds ago' -print -quit)" ] || keep "$1.seen" "$sum
$files"
    fi
    program=$built/$1-$sum/$1
    [ -x "$program" ]
}

# Puts a program that was built of the sources with this checksum in its place. Programs of other sources go once
# nobody can be about to start them.
place() {
    new=$built/new-$$
    rm -rf -- "$new" && mkdir -p -- "$new" && cp -- "$3" "$new/$1" && chmod 755 "$new/$1" && sync -- "$new/$1" ||
        fail "$1 is built, but its program cannot be put into $built"
    # Another build of the same sources may have been first.
    why=$(mv -T -- "$new" "$built/$1-$2" 2>&1) || [ -x "$built/$1-$2/$1" ] ||
        fail "$1 is built, but its program cannot be put into $built: $why"
    rm -rf -- "$new"
    new=
    find "$built" -maxdepth 1 \( -name "$1-*" ! -name "$1-$2" -o -name 'new-*' \) -mmin +60 \
        -exec rm -rf {} + 2>/dev/null
}

minutes() {
    printf '%s min %02d s' $((($(date +%s) - started) / 60)) $((($(date +%s) - started) % 60))
}

# Says how far the proving is, where that has changed or a minute has passed. The toolchain makes a folder out/ for a
# crate when it begins with it, and says when it is done.
tell() {
    state=$(cd -- "$room/repo/crates" && printf '%s\n' */out | awk -v all="$crate_count" '
        FNR == NR { if ($0 != "*/out") begun[++count] = substr($0, 1, length($0) - 4); next }
        /^rt: [a-z0-9_]+ (proved$|is kept)/ && !($2 in done) { done[$2]; ended++ }
        END {
            for (i = 1; i <= count; i++) if (!(begun[i] in done)) work = work (work ? ", " : "") begun[i]
            if (ended == all) work = "tests and the programs themselves"
            if (work) printf "%d of %d crates are proved; now %s", ended, all, work
        }' - "$room/log")
    now=$(date +%s)
    [ -n "$state" ] || return
    [ "$state" = "$told" ] && [ $((now - told_at)) -lt 60 ] && return
    printf 'zaldrum: %s (%s)\n' "$state" "$(minutes)" >&2
    told=$state told_at=$now
}

# Proves and builds what lies in room/repo by the gate's own command, which works on as many crates side by side as
# there are processors and memory for, and takes what earlier runs on this machine proved.
prove() {
    started=$(date +%s)
    told='' told_at=$started
    crate_count=$(set -- $crates && echo $#)
    : >"$room/log" || fail "there is no room for a log in $room"
    (umask 022 && cd -- "$room/repo" && TMPDIR=$room/tmp exec rt ci) </dev/null >"$room/log" 2>&1 &
    child=$!
    while kill -0 "$child" 2>/dev/null; do
        tell
        [ $((now - started)) -lt 3 ] && sleep 0.1 || sleep 0.5
    done
    wait "$child"
    status=$?
    child=
    [ "$status" -eq 0 ] && return
    awk -v from="$room/repo" '
        /: proved$|^(statements|library|logic|empty contracts)[ :=]/ && !/^rt: / { next }
        /^rt: .* (is kept: an earlier run|NOT PROVED: its library) / { next }
        { while (at = index($0, from "/")) $0 = substr($0, 1, at - 1) substr($0, at + length(from) + 1); print }
        ' "$room/log" >&2
    fail "$1 could not be built: 'rt ci' ended with status $status; what it said is above"
}

# Proves and builds programs in a room of their own: a copy of the crates that they stand on, so that nothing that
# changes meanwhile gets into them. What is in place stays as it is until they are right.
build() {
    what=$(printf '%s, ' "$@")
    what=${what%, }
    need_toolchain "$what"
    mkdir -p -- "$built" && [ -w "$built" ] || fail "programs cannot be put into $built"
    stand_on "$@"
    printf 'zaldrum: proving and building %s, which may take some minutes\n' "$what" >&2
    make_room
    chmod 711 "$room" && mkdir "$room/tmp" "$room/repo" "$room/repo/.git" "$room/repo/crates" &&
        sources_in "$here" -print0 | (cd -- "$here/crates" && xargs -0 cp -P --parents -t "$room/repo/crates" --) &&
        printf '%s\n' "$lines" >"$room/repo/crates.txt" &&
        { [ ! -f "$here/HANDLES" ] || cp -- "$here/HANDLES" "$room/repo/"; } ||
        fail "the sources cannot be copied to $room"
    prove "$what"
    for one; do
        [ -x "$room/repo/crates/$one/out/$one" ] || fail "the toolchain passed $one, but left no program of it"
        stand_on "$one"
        sum=$(sum_in "$room/repo") || fail "no checksum can be made of the sources of $one"
        place "$one" "$sum" "$room/repo/crates/$one/out/$one"
        program=$built/$one-$sum/$one
    done
    tidy
    printf 'zaldrum: built %s in %s\n' "$what" "$(minutes)" >&2
}

# Builds those of the four programs that are not built of the present sources.
run_build() {
    missing=
    for one in $programs; do
        find_built "$one" || missing="$missing $one"
    done
    [ -z "$missing" ] || build $missing
    printf 'zaldrum: %s are built\n' "$(printf '%s' "$programs" | sed 's/ /, /g')" >&2
}

# Copies a file beside its place and then renames it, so that a call of the one that was there meets no half of it.
install_file() {
    cp -- "$1" "$2.new-$$" && chmod 755 "$2.new-$$" && mv -f -- "$2.new-$$" "$2" ||
        { rm -f -- "$2.new-$$"; fail "$2 cannot be written"; }
}

run_install() {
    run_build
    mkdir -p -- "$1/programs" || fail "the folder $1 cannot be made"
    [ ! -f "$1/crates.txt" ] || fail "$1 is a repository of crates: choose another folder"
    for one in $programs; do
        find_built "$one" || fail "the sources of $one changed meanwhile: install again"
        install_file "$program" "$1/programs/$one"
    done
    install_file "$here/zaldrum" "$1/zaldrum"
    printf 'zaldrum: installed in %s; call %s/zaldrum\n' "$1" "$1" >&2
}

# Prints the checksum of the sources of each program.
sums() {
    for one in $programs; do
        stand_on "$one"
        sum_in "$here" || fail "no checksum can be made of the sources of $one"
    done
}

# Puts the programs that the gate left into place, where nothing was written to their sources since it began: with
# these checksums. What it did not leave is built.
take_built() {
    for one in $programs; do
        stand_on "$one"
        if [ -x "$here/crates/$one/out/$one" ] && [ "$(sum_in "$here")" = "$1" ] &&
            [ -z "$(sources_in "$here" -newercm "$room/started" -print -quit)" ]; then
            place "$one" "$1" "$here/crates/$one/out/$one"
        fi
        shift
    done
    (room= && run_build) || failed=$((failed + 1))
}

# Adds the numbers of the last line `N passed, M failed` of a file; with no such line nothing was judged.
add_results() {
    set -- $(sed -n 's/^\([0-9][0-9]*\) passed, \([0-9][0-9]*\) failed$/\1 \2/p' "$1" | tail -n 1)
    passed=$((passed + ${1:-0}))
    failed=$((failed + ${2:-1}))
}

# Runs a command under a name, shows what it prints, keeps that in a file of room and sets status. A last line
# `N passed, M failed` gets the name in front, as the sum follows.
follow() {
    tee "$room/$2" <"$room/said" | sed -u "s/^[0-9][0-9]* passed, [0-9][0-9]* failed\$/$1: &/" &
    shift 2
    "$@" >"$room/said" 2>&1 &
    child=$!
    wait "$child"
    status=$?
    child=
    wait
}

# Runs the gate and then the trials on what it built. The gate passes with must-fail edits that do not fit their
# sources, which show nothing, so these fail here.
run_test() {
    need_toolchain
    ask_kit
    before=$(sums)
    make_room
    : >"$room/started" && mkfifo "$room/said" || fail "no temporary files can be written in $room"
    passed=0 failed=0
    follow 'rt ci' log env -C "$here/" rt ci
    add_results "$room/log"
    unfit=$(sed -n 's/^rt: ok.*, \([1-9][0-9]*\) bad.*/\1/p' "$room/log")
    [ -z "$unfit" ] || printf 'zaldrum: must-fail edits that do not fit: %s\n' "$unfit" >&2
    failed=$((failed + ${unfit:-0}))
    if [ "$status" -eq 0 ]; then
        take_built $before
        follow trials trials "$here/tools/try_commands"
        add_results "$room/trials"
    else
        printf 'zaldrum: no trials of the programs, as not everything is proved\n' >&2
    fi
    [ "$status" -eq 0 ] || [ "$failed" -gt 0 ] || failed=1
    [ "$status" -ne 0 ] || [ "$failed" -eq 0 ] || status=1
    tidy
    printf '%s passed, %s failed\n' "$passed" "$failed"
    exit "$status"
}

run_fuzz() {
    command -v python3 >/dev/null 2>&1 || fail "the reference needs python3, which is not on the PATH"
    case $1${2-} in *[!0-9]*) refuse "fuzz takes numbers" fuzz ;; esac
    find_built judge || build judge
    exec python3 "$here/reference/fuzz.py" "$@" --program "$program"
}

# Builds the library as a static library, the same calls in plain Rust, and the program that times both, and runs it;
# what is built lies in bench/out, which git leaves out. All are built for the same processor.
run_bench() {
    need_toolchain
    command -v rustc >/dev/null 2>&1 || fail "the plain Rust needs rustc, which is not on the PATH"
    printf 'zaldrum: proving and building the static library, which may take some minutes\n' >&2
    out=$here/bench/out
    mkdir -p -- "$out" || fail "there is no room for $out"
    log=$out/library.log
    (cd -- "$here/crates/c_library" && rt lib >"$log" 2>&1) ||
        { cat "$log" >&2; fail "the static library could not be built; what the toolchain said is above"; }
    for_all="--edition 2024 -C opt-level=3 -C target-cpu=x86-64-v2"
    rustc $for_all --crate-type rlib --crate-name plain -o "$out/libplain.rlib" "$here/bench/plain/lib.rs" ||
        fail "the plain Rust could not be built"
    rustc $for_all --crate-name bench --extern plain="$out/libplain.rlib" -L native="$here/crates/c_library/out" \
        -l static=c_library -o "$out/bench" "$here/bench/harness/main.rs" || fail "the timing could not be built"
    exec "$out/bench" "$@"
}
