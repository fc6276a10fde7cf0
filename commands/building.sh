# Of ./juvrada: when a program is proved and built, and how.

# ---- what a program is built from

# The crates that one is built from, or all, each with a weight: a proof loads the crates below its own, and takes about as long as they are many.
plan() {
    awk -v wanted="$*" '
        function reach(name, seen, parts, n, i, count) {
            if (name in seen || !(name in needs)) return 0
            seen[name] = count = 1
            n = split(needs[name], parts, " ")
            for (i = 1; i <= n; i++) count += reach(parts[i], seen)
            return count
        }
        { sub(/#.*/, "") }
        /:/ { name = $1; sub(/:.*/, "", name); sub(/^[^:]*:/, ""); needs[name] = $0; all = all " " name }
        END {
            n = split(wanted == "" ? all : wanted, names, " ")
            for (i = 1; i <= n; i++) reach(names[i], chosen)
            for (name in chosen) { split("", below); print name, 4 + reach(name, below) }
        }' <"$root/crates.txt"
}

# The digest of the files that a crate is built from, and of crates.txt.
sources() {
    (
        cd "$root/crates" || exit
        crates=$(plan "$@" | cut -d ' ' -f 1)
        # shellcheck disable=SC2086
        find ../crates.txt $crates \( -name must-fail -o -name out \) -prune -o -type f -exec sha256sum {} + | LC_ALL=C sort | digest
    ) 2>/dev/null
}

digest() {
    sha256sum | cut -d ' ' -f 1
}

toolchain() {
    rt version 2>/dev/null
}

# What a crate is built into, and what is kept of that: a copy, so that it is there while `rt` works in the crate. A file beside the copy, NAME.digest, has the digests of its sources and of
# itself, and the toolchain that built it.
made() {
    case $1 in
    juvrada) echo "$root/crates/$1/out/libjuvrada.a" ;;
    *) echo "$root/crates/$1/out/$1" ;;
    esac
}

product() {
    case $1 in
    juvrada) echo "$root/target/staticlib/libjuvrada.a" ;;
    *) echo "$root/target/bin/$1" ;;
    esac
}

# Whether it is there, as it was built from the sources as they are, by the toolchain that is installed, if one is.
fresh() {
    [ -s "$(product "$1")" ] && [ -r "$(product "$1").digest" ] || return 1
    { read -r from && read -r by && read -r itself; } <"$(product "$1").digest" || return 1
    [ "$from" = "$(sources "$1")" ] && [ "$itself" = "$(digest <"$(product "$1")")" ] || return 1
    installed=$(toolchain) || return 0
    [ "$by" = "$installed" ]
}

# ---- building

# Sees that a program is built.
built() {
    fresh "$1" && return
    if writable; then
        lock
        fresh "$1" || prove "$1" "$1"
        unlock
    elif [ -x "$(product "$1")" ]; then
        say "$1 is used as it is: it may be built from other sources or by another toolchain, but $root cannot be written"
    else
        fail "$root: $1 is not built, and nothing can be written there"
    fi
}

writable() {
    if [ -e "$root/target" ]; then [ -w "$root/target" ]; else [ -w "$root" ]; fi
}

# One run builds at a time. Another waits, and looks then whether there is still something to build.
lock() {
    mkdir -p "$root/target" 2>/dev/null || fail "$root/target: cannot be made"
    if ! command -v flock >/dev/null; then
        lock_by_link "$root/target/lock.owner"
        return
    fi
    { command exec 9>"$root/target/lock"; } 2>/dev/null || fail "$root/target/lock: cannot be written"
    flock -n 9 && return
    say "waiting for another run that builds"
    flock 9 &
    child=$!
    wait "$child" || fail "$root/target/lock: cannot be locked"
    child=
}

# Where there is no flock: a link that names its owner, made in one step. One whose owner has gone is removed, by one run at a time.
lock_by_link() {
    lost=0
    told=
    until ln -s "$$" "$1" 2>/dev/null; do
        other=$(readlink "$1") || [ $((lost += 1)) -lt 5 ] || fail "$1: cannot be made"
        if [ ! -d "/proc/$other" ] && mkdir "$1.stale" 2>/dev/null; then
            [ -d "/proc/$(readlink "$1")" ] || rm -f "$1"
            rmdir "$1.stale"
            continue
        fi
        [ "$other" = "$told" ] || say "waiting for another run that builds, process $other"
        told=$other
        sleep 1
    done
    owner=$1
}

unlock() {
    [ -z "$owner" ] || rm -f "$owner"
    owner=
    exec 9>&-
}

# Proves and builds a program, or everything. The digests are taken before: a source that changes meanwhile is built again.
prove() { # PROGRAM or '', PRODUCT..
    goal=$1
    shift
    command -v rt >/dev/null || fail "no rt: building ${goal:-everything} needs the Rattle toolchain"
    folder
    start=$(date +%s)
    note "$@"
    plan ${goal:+"$goal"} >"$scratch/plan"
    steps=$(($(wc -l <"$scratch/plan")))
    say "${goal:-everything}, $steps steps; the first time that takes some minutes"
    run_rt "$goal"
    keep "$@"
    say "${goal:-everything} built in $(($(date +%s) - start)) s"
}

# What crates are built from now, in the temporary folder.
note() {
    for name in "$@"; do
        { sources "$name" && toolchain; } >"$scratch/$name.digest" || fail "$name: its sources cannot be read"
    done
}

# Keeps what was built of them since.
keep() {
    for name in "$@"; do
        to=$(product "$name")
        {
            mkdir -p "${to%/*}" && [ -s "$(made "$name")" ] && cp -p "$(made "$name")" "$to.new" && digest <"$to.new" >>"$scratch/$name.digest" &&
                rm -f "$to.digest" && mv -f "$to.new" "$to" && cp "$scratch/$name.digest" "$to.digest"
        } 2>/dev/null || fail "$to: cannot be written"
    done
}

# Has rt prove and build a program with all that is below it, or everything, and run each program on what is kept for it. rt runs in a session of its own, so that it can be ended with all that
# it has started: those ignore Ctrl-C. Its temporary files are among ours, and target/log has what it says.
run_rt() { # PROGRAM or ''
    mkdir -p "$scratch/rt" && chmod 711 "$scratch" "$scratch/rt" && mkfifo "$scratch/lines" || fail "$scratch: cannot be written"
    session=setsid
    command -v setsid >/dev/null || session=
    (cd "$root${1:+/crates/$1}" && TMPDIR=$scratch/rt exec $session rt all test) >"$scratch/lines" 2>&1 </dev/null &
    child=$!
    trouble=
    progress <"$scratch/lines" 3>"$root/target/log"
    wait "$child"
    status=$?
    child=
    rm -f "$scratch/lines"
    [ "$status" -eq 0 ] || fail "rt all test${1:+ in crates/$1}: ${trouble:-status $status}; expected a proof of each crate (target/log says more)"
}

# Reads what rt says: `== NAME` once it is done with a crate, then what was said of it, which is nothing where it is unchanged; at the end a line for each crate.
progress() {
    seen=0
    done=0
    left=$(awk '{ sum += $2 } END { print sum }' "$scratch/plan")
    name=
    ending=
    while IFS= read -r line; do
        printf '%s\n' "$line" >&3
        case $line in
        '== '*)
            [ -z "$name" ] || step "$name" unchanged
            name=${line#== }
            [ "$name" != summary ] || name='' ending=yes
            continue
            ;;
        'rt: mend these first'*) trouble=${trouble:-${line#rt: }} ;;
        *': ok') ;;
        *': failed ('*) [ -z "$ending" ] || trouble=${trouble:-$line} ;;
        esac
        [ -z "$name" ] || step "$name" proved
        name=
    done
}

step() { # NAME unchanged|proved
    weight=$(awk -v name="$1" '$1 == name { print $2 }' "$scratch/plan")
    seen=$((seen + 1))
    left=$((left - ${weight:-0}))
    [ "$2" = proved ] || return 0
    done=$((done + ${weight:-1}))
    say "$seen of $steps, $(minutes $((($(date +%s) - start) * left / done))) left"
}

minutes() {
    if [ "$1" -lt 60 ]; then echo "less than a minute"; else echo "about $((($1 + 30) / 60)) min"; fi
}
