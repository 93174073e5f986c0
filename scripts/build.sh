# Proves the crates of the program and builds it, for the script r4k, whose names these lines use. The sources are fingerprinted
# before and after, so that an edit that is saved meanwhile is never taken for built.

log=$kept/log # a record for each crate

# The program's crates, lowest first, each with those that it uses.
crates() {
    awk '
        { sub(/#.*/, "") }
        /:/ { split($0, half, ":"); name = half[1]; sub(/[ \t].*/, "", name); order[++count] = name; uses[name] = half[2] }
        END {
            needed["r4k"] = 1
            for (at = count; at > 0; at--) if (order[at] in needed) {
                n = split(uses[order[at]], names, " ")
                for (k = 1; k <= n; k++) if (names[k] in uses) needed[names[k]] = 1
            }
            for (at = 1; at <= count; at++) if (order[at] in needed) {
                n = split(uses[order[at]], names, " ")
                line = order[at]
                for (k = 1; k <= n; k++) if (names[k] in needed) line = line " " names[k]
                print line
            }
        }' "$top/crates.txt"
}

# Lists the crates, where that can be written.
list() {
    { crates | cut -d' ' -f1 >"$names.new" && mv -f "$names.new" "$names"; } 2>/dev/null
}

# What the sources contain.
contents() {
    sources -print0 | LC_ALL=C sort -z | (cd "$top" && xargs -0 sha256sum)
}

# Keeps how the sources looked when they contained what the stamp says. Where one was written within the last two seconds this is
# left for later: a write in the same instant could leave its looks as they are.
keep_looks() {
    [ -z "$(sources -newerct '2 seconds ago' -print -quit)" ] || return 0
    { printf '%s\n' "$1" >"$seen.new" && mv -f "$seen.new" "$seen"; } 2>/dev/null
    return 0
}

is_current() {
    local looked
    [ -x "$program" ] && [ -f "$stamp" ] || return 1
    list
    looked=$(looks)
    [ "$(contents)" = "$(<"$stamp")" ] || return 1
    keep_looks "$looked"
}

# How many crates or halves of one can be proved at once: one a processor, where each has two gigabytes of memory.
places() {
    local processors memory
    processors=$(nproc 2>/dev/null || echo 1)
    memory=$(awk '$1 == "MemAvailable:" { print int($2 / 2000000) }' /proc/meminfo 2>/dev/null)
    [ -n "$memory" ] && [ "$memory" -lt "$processors" ] && processors=$memory
    [ "$processors" -gt 0 ] || processors=1
    echo "${JOBS:-$processors}"
}

minutes() {
    echo "$(((SECONDS - begun + 30) / 60))"
}

# Begins the proof of a crate with so many jobs. The last crate is the program, which is built, and its first image is run, so that
# it ends with 0 only where the program works.
begin() {
    local name=$1 jobs=$2
    (
        cd "$top/crates/$name" || exit 1
        if [ "$name" = r4k ]; then
            rt run --jobs "$jobs" -- run pc/16 "$top/crates/r4k/data/first.elf" - - 100
        else
            rt lib --jobs "$jobs"
        fi
        echo "$?" >"$log/$name.status"
    ) >"$log/$name" 2>&1 </dev/null &
    running[$name]=$! taken[$name]=$jobs free=$((free - jobs)) started=$((started + 1))
    say "minute $(minutes): proving $name, $started of $count"
}

# Ends what is being proved, each with all that it began.
stop() {
    local name
    for name in "${!running[@]}"; do
        kill -TERM -- "-${running[$name]}" 2>/dev/null
    done
    wait 2>/dev/null
    running=()
}

# Proves each crate as soon as those that it uses are proved, as many at once as there are places; of those that can be proved,
# first the one with the most behind it, by the size of the sources.
build() {
    local -a order=() ready
    local -A uses=() behind=() running=() taken=() proved=()
    local name use size free started=0 count last jobs status
    local begun=$SECONDS
    free=$(places)
    while read -r name use; do
        order+=("$name")
        uses[$name]=$use
    done < <(crates)
    count=${#order[@]}
    for ((last = count - 1; last >= 0; last--)); do
        name=${order[last]}
        size=$(find "$top/crates/$name"/{src,specs,proofs} -type f -printf '%s\n' 2>/dev/null | awk '{ sum += $1 } END { print sum + 0 }')
        behind[$name]=$((${behind[$name]:-0} + size + 1))
        for use in ${uses[$name]}; do
            [ "${behind[$use]:-0}" -ge "${behind[$name]}" ] || behind[$use]=${behind[$name]}
        done
    done
    rm -rf "$log"
    mkdir -p "$log" || return 1
    set -m
    trap 'stop; exit 130' INT
    trap 'stop; exit 143' TERM HUP
    while [ "${#proved[@]}" -lt "$count" ]; do
        ready=()
        for name in "${order[@]}"; do
            [ -z "${proved[$name]-}${running[$name]-}" ] || continue
            for use in ${uses[$name]}; do
                [ -n "${proved[$use]-}" ] || continue 2
            done
            ready+=("${behind[$name]} $name")
        done
        # What few crates leave free is shared among them.
        last=${#ready[@]}
        while read -r size name; do
            [ "$free" -gt 0 ] && [ -n "$name" ] || break
            jobs=$((free / last))
            begin "$name" "$((jobs > 1 ? jobs : 1))"
            last=$((last - 1))
        done < <(printf '%s\n' "${ready[@]}" | sort -rn)
        wait -n 2>/dev/null
        for name in "${!running[@]}"; do
            if [ -f "$log/$name.status" ]; then
                status=$(<"$log/$name.status")
            elif kill -0 "${running[$name]}" 2>/dev/null; then
                continue
            else
                status=1
            fi
            free=$((free + taken[$name]))
            unset "running[$name]"
            if [ "$status" != 0 ]; then
                stop
                tail -n 20 "$log/$name" >&2
                say "$name was not proved; the whole record is in $log/$name"
                return 1
            fi
            proved[$name]=1
        done
    done
    set +m
    trap - INT TERM HUP
    [ -x "$top/crates/r4k/out/r4k" ] || return 1
    say "minute $(minutes): proved and built"
}

# Takes the program that was built into its place.
take() {
    cp -- "$top/crates/r4k/out/r4k" "$program.new" && printf '%s\n' "$1" >"$stamp.new" || return 1
    rm -f "$seen"
    # In between, the stamp is missing: a call that is killed here leaves a program that counts for nothing.
    rm -f "$stamp" && mv -f "$program.new" "$program" && mv -f "$stamp.new" "$stamp" && keep_looks "$2"
}

# Makes the program of the sources as they stand, unless another call has done so meanwhile.
prove() {
    local before looked
    is_current && return
    for _ in 1 2 3; do
        list
        before=$(contents)
        looked=$(looks)
        if ! (build); then
            say "the program was not built"
            return 1
        fi
        if [ "$looked" = "$(looks)" ]; then
            take "$before" "$looked"
            return
        fi
        say "a source was changed meanwhile; proving again"
    done
    say "the sources change faster than they are proved"
    return 1
}

make_current() {
    is_current && return
    if ! command -v rt >/dev/null; then
        say "the program has to be built, and the toolchain's command rt is not on the PATH (README, What it needs)"
        return 1
    fi
    if ! mkdir -p "$kept" 2>/dev/null || [ ! -w "$kept" ]; then
        say "the program has to be built, and $kept cannot be written"
        return 1
    fi
    # One call builds, and others wait for it.
    exec 9>"$kept/lock" || return 1
    if command -v flock >/dev/null && ! flock -n 9; then
        say "another call is proving; waiting for it"
        flock 9
    fi
    is_current || say "proving and building the program; from nothing this takes half an hour and more on four processors"
    prove 9>&-
    local answer=$?
    exec 9>&-
    return "$answer"
}
