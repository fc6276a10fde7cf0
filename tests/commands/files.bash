# Of tests/commands/check: streams, names of files, and the file of -o.

# ---- standard input

same sheet-example 0 "$juvrada" sheet - <example
shows 'standard input' -
same sheet-example 0 "$juvrada" sheet - < <(cat example)
same sheet-example 0 "$juvrada" sheet <(cat example)
same sheet-example 0 "$juvrada" sheet - < <(head -c 100 example; sleep 0.2; tail -c +101 example)
same parameters-example 0 "$juvrada" parameters - <example
shows 'standard input' -
same heights-lfo 0 "$juvrada" heights - 3 17 <example
same compare-different 1 "$juvrada" compare - changed <example
same compare-different 1 "$juvrada" compare example - <changed
# without a block it is the empty program, whatever is on standard input
same sheet-empty 0 "$juvrada" sheet <example
same parameters-empty 0 "$juvrada" parameters <example
same chart 0 "$juvrada" chart <example
same chart 0 "$juvrada" chart <&-
refused "standard input: 241 bytes; $block" "$juvrada" sheet - <short
refused "standard input: more than 242 bytes; $block" "$juvrada" sheet - < <(cat long long)
# closed, under each shell that sh may be: what they open takes the place of a closed stream in different ways
for shell in sh bash dash; do
  command -v "$shell" >/dev/null || continue
  refused "standard input: 0 bytes; $block" timeout 20 "$shell" "$juvrada" sheet - <&-
  same sheet-example 0 timeout 20 "$shell" "$juvrada" sheet example <&-
  same sheet-example 0 timeout 20 "$shell" -c '"$@" 2>&-' "$shell" "$shell" "$juvrada" sheet example
done
refused "standard input: cannot be copied: Is a directory; $block" "$juvrada" sheet - <folder

# ---- standard output and standard error

# unwritable COMMAND..: standard output is full, and closed
unwritable() {
  local how
  for how in full closed; do
    tried=$((tried + 1))
    case $how in
    full) "$@" 2>err >/dev/full ;;
    closed) "$@" 2>err >&- 3>&- ;;
    esac
    got=$?
    [ "$got" -eq 2 ] && [ "$(said)" = "juvrada: standard output: cannot be written" ] || wrong "'$*', standard output $how: status $got; it said: $(said)"
  done
}

unwritable "$juvrada" sheet
unwritable "$juvrada" sheet example
unwritable "$juvrada" parameters example
unwritable "$juvrada" compare example example
unwritable "$juvrada" compare -q example example
unwritable "$juvrada" compare --svg example changed
unwritable "$juvrada" heights example 3
unwritable "$juvrada" chart
unwritable "$juvrada" floor 0x1
unwritable "$juvrada" check
unwritable "$juvrada" --help
unwritable "$juvrada" --version
unwritable bash "$juvrada" sheet
# with -o nothing is written there
"$juvrada" sheet -o page.svg example >&- 2>err
expect "sheet -o wants a standard output" eval '[ $? -eq 0 ] && cmp -s page.svg "$here/expected/sheet-example.out"'

# a reader that goes is no error, and nothing is said
for words in 'sheet example' 'heights example 3 4096' 'compare --svg example changed'; do
  # shellcheck disable=SC2086
  { "$juvrada" $words 2>err; echo $? >status; } | head -n 1 >out
  expect "'$words' into head: status $(cat status), it said: $(cat err)" eval '[ "$(cat status)" -eq 141 ] && [ ! -s err ] && [ "$(wc -l <out)" -eq 1 ]'
  expect "'$words' into head left something in the temporary folder" [ -z "$(ls -A "$TMPDIR")" ]
done

# ---- names

"$juvrada" sheet changed >changed.svg
names=('-' '--' '-o' '-q' '--svg' '--help' '-n1' 'two words' ' ' '*' '(' '!' 'a=b' $'new\nline' $'end\n' $'\e[31m' $'\200' 'back\slash' "quote'" '%s')
for name in "${names[@]}"; do
  cp -- changed "./$name"
  same compare-over 1 "$juvrada" compare --svg -- example "$name"
  run "$juvrada" sheet -o "folder/$name" -- "$name"
  expect "sheet -o folder/$name" eval '[ "$got" -eq 0 ] && [ ! -s out ] && [ -z "$(said)" ] && cmp -s <(unnamed "folder/$name") <(unnamed changed.svg)'
  rm -- "./$name" "folder/$name"
done
expect "sheet -o left something beside the file" [ -z "$(ls -A folder)" ]
# a name that begins with a dash, and any name that does not, without --
cp changed ./-x
same compare-over 1 "$juvrada" compare --svg example ./-x
shows -x ./-x
mkdir deep && cp example 'deep/a&b <c>'
same sheet-example 0 "$juvrada" sheet 'deep/a&b <c>'
shows 'a&amp;b &lt;c&gt;' 'deep/a&b <c>'
same parameters-example 0 "$juvrada" parameters 'deep/a&b <c>'
shows 'a&amp;b &lt;c&gt;' 'deep/a&b <c>'
rm -r deep
same parameters-example 0 "$juvrada" parameters -- example
refused "no option '-x' $hint" "$juvrada" compare --svg example -x

# what cannot be printed is escaped, so that an error is one line
refused "no\\x0asuch\\x1b[1m\\x80\\\\\\x09: no such file; $block" "$juvrada" sheet $'no\nsuch\e[1m\200\\\t'
refused "end\\x0a: no such file; $block" "$juvrada" sheet $'end\n'
refused "\\\\x0a: no such file; $block" "$juvrada" sheet '\x0a'
refused "no command 'a\\x0ab' $hint" "$juvrada" $'a\nb'
refused "no option '-\\x07' $hint" "$juvrada" sheet $'-\a'
refused "code '3\\x0a': expected a number from 0 to 13" "$juvrada" heights example $'3\n'
refused "floor: '0x1\\x0a': expected a bit pattern of an f32, 0x and 1 to 8 hexadecimal digits" "$juvrada" floor $'0x1\n'
refused "100%s and \$HOME: no such file; $block" "$juvrada" sheet "100%s and \$HOME"
refused "\\xc3\\xbcber: no such file; $block" "$juvrada" sheet $'\303\274ber'
if locale -a 2>/dev/null | grep -qi '^C.utf-\{0,1\}8$'; then
  refused $'\303\274ber: no such file; '"$block" env LC_ALL=C.UTF-8 "$juvrada" sheet $'\303\274ber'
  refused "\\xc2\\x9b1m: no such file; $block" env LC_ALL=C.UTF-8 "$juvrada" sheet $'\302\2331m'
  refused "\\x80: no such file; $block" env LC_ALL=C.UTF-8 "$juvrada" sheet $'\200'
else
  skip "names in UTF-8" "no locale C.UTF-8"
fi

# ---- the file of -o

file='expected a file to write'
page=$here/expected/sheet-example.out
rm -f page.svg
run "$juvrada" sheet example -o page.svg
expect "sheet -o after the block" eval '[ "$got" -eq 0 ] && [ ! -s out ] && cmp -s page.svg "$page"'
run "$juvrada" -o page.svg sheet
expect "sheet -o replaces a page" eval '[ "$got" -eq 0 ] && cmp -s page.svg "$here/expected/sheet-empty.out"'
run "$juvrada" parameters example -o page.svg
expect "parameters -o replaces a page" eval '[ "$got" -eq 0 ] && [ ! -s out ] && cmp -s page.svg "$here/expected/parameters-example.out"'
run "$juvrada" chart -o page.svg
expect "chart -o replaces a page" eval '[ "$got" -eq 0 ] && [ ! -s out ] && cmp -s page.svg "$here/expected/chart.out"'
run "$juvrada" compare -o page.svg example --svg changed
expect "compare --svg -o" eval '[ "$got" -eq 1 ] && cmp -s page.svg "$here/expected/compare-over.out"'
(umask 022 && "$juvrada" sheet -o open.svg && umask 077 && "$juvrada" sheet -o closed.svg)
expect "the mode of the file of -o is not the umask's" [ "$(stat -c %a open.svg closed.svg | tr '\n' ' ')" = '644 600 ' ]

refused "short: 241 bytes; $block" "$juvrada" sheet -o refused.svg short
expect "a refused block left a file" [ ! -e refused.svg ]
refused "folder: a folder; $file" "$juvrada" sheet -o folder example
refused "new/: a folder; $file" "$juvrada" sheet -o new/ example
mkfifo pipe
refused "pipe: not a plain file; $file" timeout 20 "$juvrada" sheet -o pipe example
expect "a pipe is replaced" [ -p pipe ]
refused "nowhere/page.svg: nothing can be written beside it" "$juvrada" sheet -o nowhere/page.svg example
cp example kept
ln example hard
ln -s example soft
for name in example ./example hard soft; do
  refused "$name: one of the inputs; $file" "$juvrada" sheet -o "$name" example
  refused "$name: one of the inputs; $file" "$juvrada" compare --svg -o "$name" changed example
done
refused "example: one of the inputs; $file" "$juvrada" sheet -o example - <example
refused "full: 242 bytes, as a block has; remove it if it is none" "$juvrada" sheet -o full example
refused "full: 242 bytes, as a block has; remove it if it is none" "$juvrada" parameters -o full example
refused "example: one of the inputs; $file" "$juvrada" parameters -o example example
refused "full: 242 bytes, as a block has; remove it if it is none" "$juvrada" chart -o full
refused "folder: a folder; $file" "$juvrada" chart -o folder
expect "a block is written over" eval 'cmp -s example kept && cmp -s full "$here/blocks/full"'
# through a link the file that it names is written, and the link stays
ln -s folder/linked.svg link.svg
run "$juvrada" sheet -o link.svg example
expect "sheet -o of a link" eval '[ "$got" -eq 0 ] && [ -L link.svg ] && [ ! -L folder/linked.svg ] && cmp -s folder/linked.svg "$page"'
ln -s loop.svg loop.svg
refused "loop.svg: a link to nowhere; $file" "$juvrada" sheet -o loop.svg example
expect "-o left something beside the file" [ -z "$(find . -name '.juvrada*')" ]

# ---- the temporary folder

refused "no temporary folder can be made" env TMPDIR="$scratch/nowhere" "$juvrada" sheet example
mkdir ./-tmp
same sheet-example 0 env TMPDIR=-tmp "$juvrada" sheet example
expect "a temporary folder whose name begins with a dash is not left empty" [ -z "$(ls -A ./-tmp)" ]

# ---- files that a user may not read or write: root may, so that nobody runs these

nobody=(setpriv --reuid=65534 --regid=65534 --clear-groups)
chmod 711 "$scratch" && chmod 1777 "$TMPDIR"
if [ "$(id -u)" -ne 0 ]; then
  user=(env)
elif "${nobody[@]}" cat "$root/target/bin/sheet.digest" example >/dev/null 2>&1; then
  user=("${nobody[@]}")
else
  user=()
  skip "files without permission" "root cannot run a command as nobody here"
fi
if [ ${#user[@]} -gt 0 ]; then
  cp example locked && chmod 000 locked
  mkdir open shut && cp page.svg open/kept.svg && chmod 777 open && chmod 444 open/kept.svg && chmod 555 shut
  same sheet-example 0 "${user[@]}" "$juvrada" sheet example
  refused "locked: cannot be copied: Permission denied; $block" "${user[@]}" "$juvrada" sheet locked
  refused "open/kept.svg: cannot be written" "${user[@]}" "$juvrada" sheet -o open/kept.svg example
  refused "shut/page.svg: nothing can be written beside it" "${user[@]}" "$juvrada" sheet -o shut/page.svg example
  expect "a file without permission is written" eval 'cmp -s page.svg open/kept.svg && [ "$(ls -A open shut | tr "\n" " ")" = "open: kept.svg  shut: " ]'
fi

# ---- full and read-only disks, where folders can be mounted

# The command that runs another where it can mount: as root, or in a user namespace.
if unshare -m true 2>/dev/null; then
  apart=(unshare -m)
elif unshare -rm true 2>/dev/null; then
  apart=(unshare -rm)
else
  apart=()
fi

# small COMMAND..: with `disk` of 16 kB, on which page.svg is a page of other bytes; with full=yes nothing more has room there
full=
small() {
  # shellcheck disable=SC2016
  full=$full "${apart[@]}" sh -c 'mount -t tmpfs -o size=16k none disk && echo other >disk/page.svg || exit 77
    [ -z "$full" ] || cat /dev/zero >disk/fill 2>/dev/null
    "$@"; got=$?; ls -A disk >listed; cp disk/page.svg now.svg; umount disk; exit "$got"' sh "$@"
}

# frozen FOLDER COMMAND..: with the folder read-only
frozen() {
  # shellcheck disable=SC2016
  "${apart[@]}" sh -c 'mount --bind "$0" "$0" && mount -o remount,bind,ro "$0" || exit 77; "$@"' "$@"
}

mkdir disk
if [ ${#apart[@]} -eq 0 ] || ! small true 2>/dev/null; then
  skip "full and read-only disks" "nothing can be mounted"
  apart=()
else
  refused "disk/new.svg: cannot be written" small "$juvrada" sheet -o disk/new.svg example
  expect "a full disk has $(tr '\n' ' ' <listed)" [ "$(cat listed)" = page.svg ]
  refused "disk/page.svg: cannot be written" small "$juvrada" compare --svg -o disk/page.svg example changed
  expect "a page is written over on a full disk" [ "$(cat listed now.svg)" = $'page.svg\nother' ]
  refused "sheet: no whole text in the temporary folder; expected '</svg>' in its last line" small env TMPDIR=disk "$juvrada" sheet example
  full=yes
  refused "the temporary folder cannot be written" small env TMPDIR=disk "$juvrada" sheet
  refused "example: cannot be copied: No space left on device; $block" small env TMPDIR=disk "$juvrada" sheet example
  refused "standard input: cannot be copied: No space left on device; $block" small env TMPDIR=disk "$juvrada" compare - changed <example
  refused "checklist: no whole text in the temporary folder; expected ' rows ' in its last line" small env TMPDIR=disk "$juvrada" check
  full=
  refused "folder/page.svg: nothing can be written beside it" frozen folder "$juvrada" sheet -o folder/page.svg example
  same sheet-example 0 frozen "$root" "$juvrada" sheet example
  same check 0 frozen "$root" "$juvrada" check
fi
