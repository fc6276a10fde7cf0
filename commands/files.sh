# Of ./juvrada: the blocks that it reads, the programs that it runs on them, the page or text that it writes.

# Copies a block into the temporary folder. It has 242 bytes; of a longer file one more is read.
block() { # NAME COPY
    folder
    expected='expected a block of 242 bytes'
    [ -n "$1" ] || fail "'' names no file; $expected"
    if [ "$1" = - ]; then
        name='standard input'
        said=$(head -c 243 2>&1 >"$scratch/$2")
    else
        name=$1
        [ -e "$1" ] || fail "$1: no such file; $expected"
        [ ! -d "$1" ] || fail "$1: a folder; $expected"
        said=$({ head -c 243 <"$1" >"$scratch/$2"; } 2>&1)
    fi || fail "$name: cannot be copied: ${said##*: }; $expected"
    size=$(($(wc -c <"$scratch/$2")))
    [ "$size" -le 242 ] || fail "$name: more than 242 bytes; $expected"
    [ "$size" -eq 242 ] || fail "$name: $size bytes; $expected"
}

# Makes the input of a program, from what a command prints.
gather() { # COMMAND..
    "$@" >"$scratch/blocks" 2>/dev/null || fail "the temporary folder cannot be written"
}

# Looks at the file of -o before anything is built. Of a link it takes the file that the link names.
settle() { # INPUT..
    [ -n "$file" ] || return 0
    expected='expected a file to write'
    case $file in */) fail "$file: a folder; $expected" ;; esac
    [ ! -d "$file" ] || fail "$file: a folder; $expected"
    for word in "$@"; do
        [ "$word" != - ] || word=/dev/stdin
        # shellcheck disable=SC3013
        [ ! "$file" -ef "$word" ] || fail "$file: one of the inputs; $expected"
    done
    [ ! -e "$file" ] || [ -f "$file" ] || fail "$file: not a plain file; $expected"
    [ ! -e "$file" ] || [ -w "$file" ] || fail "$file: cannot be written"
    [ ! -r "$file" ] || [ "$(wc -c <"$file")" -ne 242 ] || fail "$file: 242 bytes, as a block has; remove it if it is none"
    if [ -L "$file" ]; then
        link=$(readlink -f -- "$file" && echo .) || fail "$file: a link to nowhere; $expected"
        file=${link%"$newline".}
    fi
}

# Prints the text, or makes it the file: written to a new one beside it, which takes its name once it is whole.
deliver() {
    if [ -z "$file" ]; then
        out cat "$scratch/text"
        return
    fi
    case $file in
    */*) beside=${file%/*}/ ;;
    *) beside=./ ;;
    esac
    part=$(mktemp "$beside.juvrada.XXXXXX" 2>/dev/null) || fail "$file: nothing can be written beside it"
    { cat "$scratch/text" >"$part" && chmod '=rw' "$part" && mv -f -- "$part" "$file"; } 2>/dev/null || fail "$file: cannot be written"
    part=
}

# Makes a page of what was gathered, by its program. It has the name of the block's file, and of the old block's where there is one; without a block there is none. A word
# stands before the names.
page() { # PROGRAM, BLOCK or '', OLD or '' [WORD]
    leaf "$2"
    new=$leaf
    leaf "$3"
    run "$1" "$scratch/blocks" '</svg>' ${4:+"$4"} "$new" "$leaf"
}

# Sets `leaf` to the name of a block's file, without its folder.
leaf() { # BLOCK or ''
    leaf=${1##*/}
    [ "$1" != - ] || leaf='standard input'
}

# Runs a program. Its exit status says no more than whether it could read and write: its text is whole where the last line has a mark.
run() { # PROGRAM INPUT MARK [ARGUMENT..]
    program=$1
    input=$2
    mark=$3
    shift 3
    { "$(product "$program")" "$@" <"$input" >"$scratch/text"; } 2>"$scratch/said"
    case $(tail -n 1 "$scratch/text" 2>/dev/null) in
    *"$mark"*) ;;
    *) fail "$program: no whole text in the temporary folder; expected '$mark' in its last line$(sed -n '1s/^/: /p' "$scratch/said")" ;;
    esac
}
