# Of tests/commands/check: when a program is built, by whom and how often. A small checkout has the script and crates of a line each; a stand-in for rt says what rt says,
# and copies the programs of this checkout instead of proving them. It notes each run in $stand/log, with the folder that it is run in.

checkout=$scratch/checkout
stand=$scratch/stand
mkdir -p "$checkout/crates" "$stand/bin" "$scratch/away"
cp -R "$juvrada" "$root/commands" "$checkout"
door=$checkout/juvrada
cat >"$checkout/crates.txt" <<'END'
# a comment
lists:
text: lists
page: text # types: lists

sheet: page
parameters: text
compare: text
heights: text
curve_search: text
chart: text
floor_working: text
checklist: lists
juvrada staticlib: lists
alone:
END
for crate in lists text page sheet parameters compare heights curve_search chart floor_working checklist juvrada alone; do
  mkdir -p "$checkout/crates/$crate/src" "$checkout/crates/$crate/must-fail"
  echo "$crate" >"$checkout/crates/$crate/src/lib.rt"
done
cp "$root/crates/checklist/stdin" "$checkout/crates/checklist/"
echo 'stand-in 1' >"$stand/version"

# What it does beside: waits while $stand/hold is there, with a process that ignores Ctrl-C as a prover does; changes a source if $stand/change is there; fails if $stand/break is.
cat >"$stand/bin/rt" <<END
#!/bin/sh
stand='$stand' real='$root/target'
END
cat >>"$stand/bin/rt" <<'END'
[ "$1" != version ] || exec cat "$stand/version"
case $PWD in */crates/*) goal=${PWD##*/}; top=${PWD%/*/*} ;; *) goal=everything top=$PWD ;; esac
echo "$goal: $*" >>"$stand/log"
mktemp -d >"$stand/temporary"
if [ -e "$stand/hold" ]; then
  (trap '' INT; exec sleep 1000) &
  echo $! >"$stand/prover"
  while [ -e "$stand/hold" ]; do sleep 0.05; done
  kill $!
fi
rm -r "$(cat "$stand/temporary")"
echo 'rt: chose 2 at a time'
if [ -e "$stand/break" ]; then
  printf '%s\n' '== lists' '== text' 'a line of the prover' '== summary' 'lists: ok' 'text: failed (1)' 'page: not run, since text failed'
  exit 1
fi
case $goal:$* in
'sheet:all test') crates='lists text page sheet' ;;
'parameters:all test') crates='lists text parameters' ;;
'compare:all test') crates='lists text compare' ;;
'everything:all test') crates='alone lists checklist juvrada text compare heights curve_search chart floor_working parameters page sheet' ;;
*) exit 3 ;;
esac
for crate in $crates; do
  echo "== $crate"
  [ "$crate" = lists ] || printf '%s\n' 'a line of the prover' 'rt: another'
  mkdir -p "$top/crates/$crate/out"
  case $crate in
  sheet | parameters | compare | heights | curve_search | chart | floor_working | checklist) cp "$real/bin/$crate" "$top/crates/$crate/out/" ;;
  juvrada) cp "$stand/version" "$top/crates/$crate/out/libjuvrada.a" ;;
  esac
done
[ ! -e "$stand/change" ] || echo changed >>"$top/crates/text/src/lib.rt"
echo '== summary'
for crate in $crates; do echo "$crate: ok"; done
echo "some of some crates ok"
END
chmod +x "$stand/bin/rt"
usual=$PATH
PATH=$stand/bin:$usual

# builds COUNT WHAT COMMAND..: prints the example's sheet, and rt was run that often
builds() {
  local count=$1 what=$2
  shift 2
  : >"$stand/log"
  same sheet-example 0 "$@"
  expect "$what: rt was run $(wc -l <"$stand/log") times, expected $count" [ "$(wc -l <"$stand/log")" -eq "$count" ]
}

# until CONDITION: waits ten seconds for it
until_so() {
  local n=0
  until eval "$1" 2>/dev/null; do
    n=$((n + 1))
    [ "$n" -lt 200 ] || { wrong "waited in vain: $1"; return 1; }
    sleep 0.05
  done
}

# ---- when a program is built

builds 1 "nothing is built" "$door" sheet example
cat >want <<'END'
juvrada: build: sheet, 4 steps; the first time that takes some minutes
juvrada: build: 2 of 4, less than a minute left
juvrada: build: 3 of 4, less than a minute left
juvrada: build: 4 of 4, less than a minute left
END
expect "how building goes is said otherwise: $(cat err)" eval 'head -n 4 err | cmp -s - want && tail -n +5 err | grep -Eqx "juvrada: build: sheet built in [0-9]+ s"'
builds 0 "nothing has changed" "$door" sheet example
expect "a program that is built says something" [ ! -s err ]
find "$checkout" -type f -exec touch {} +
builds 0 "only times have changed" "$door" sheet example
echo more >>"$checkout/crates/alone/src/lib.rt"
echo more >"$checkout/crates/lists/must-fail/an.edit"
builds 0 "what it is not built from has changed" "$door" sheet example
echo other >"$checkout/crates/text/src/lib.rt"
touch -d 2000-01-01 "$checkout/crates/text/src/lib.rt"
builds 1 "a source has changed, with an old time" "$door" sheet example
mkdir "$checkout/crates/page/specs" && echo new >"$checkout/crates/page/specs/Lib.antt"
builds 1 "a source is new" "$door" sheet example
rm -r "$checkout/crates/page/specs"
builds 1 "a source has gone" "$door" sheet example
echo '# more' >>"$checkout/crates.txt"
builds 1 "crates.txt has changed" "$door" sheet example
echo 'stand-in 2' >"$stand/version"
builds 1 "the toolchain has changed" "$door" sheet example
rm "$checkout/target/bin/sheet"
builds 1 "the program has gone" "$door" sheet example
echo >>"$checkout/target/bin/sheet"
builds 1 "the program is another than the one that was built" "$door" sheet example
touch "$stand/change"
echo again >>"$checkout/crates/page/src/lib.rt"
builds 1 "a source has changed" "$door" sheet example
rm "$stand/change"
builds 1 "a source changed during the last build" "$door" sheet example

# with no stream open at all
echo again >>"$checkout/crates/page/src/lib.rt"
: >"$stand/log"
"$door" sheet -o streams.svg example <&- >&- 2>&- 3>&-
expect "with closed streams: status $?" [ $? -eq 0 ]
expect "with closed streams it is another sheet, or built otherwise" eval 'cmp -s streams.svg "$page" && [ "$(wc -l <"$stand/log")" -eq 1 ] && [ -z "$(ls -A "$TMPDIR")" ]'
builds 0 "built with closed streams" "$door" sheet example

# a build that fails is an error, and is tried again
echo wrong >>"$checkout/crates/text/src/lib.rt"
touch "$stand/break"
failure='rt all test in crates/sheet: text: failed (1); expected a proof of each crate (target/log says more)'
refused "$failure" "$door" sheet example
refused "$failure" "$door" sheet -o page.svg example
rm "$stand/break"
builds 1 "the last build failed" "$door" sheet example

# without rt what is built is used, and the rest refused
PATH=$usual
without=$scratch/without
mkdir "$without"
for tool in awk cat chmod cmp cp cut date env find grep head ln mkdir mkfifo mktemp mv od readlink rm rmdir sed setsid sha256sum sh sleep sort tail wc; do
  ln -s "$(command -v "$tool")" "$without/$tool"
done
same sheet-example 0 env PATH="$without" "$door" sheet example
refused "no rt: building compare needs the Rattle toolchain" env PATH="$without" "$door" compare example changed
run env PATH="$without" "$door" --version
expect "--version without rt" eval '[ "$got" -eq 0 ] && [ "$(tail -n +2 out)" = "no rt: the Rattle toolchain is not installed" ]'
PATH=$stand/bin:$usual

# ---- everything

: >"$stand/log"
run "$door" build
expect "build: status $got" [ "$got" -eq 0 ]
expect "build ran: $(cat "$stand/log")" [ "$(cat "$stand/log")" = 'everything: all test' ]
expect "build says: $(head -n 1 err)" eval 'head -n 1 err | grep -q "^juvrada: build: everything, 13 steps" && grep -q "^juvrada: build: 13 of 13, " err'
: >"$stand/log"
same sheet-example 0 "$door" sheet example
same parameters-example 0 "$door" parameters example
same compare-different 1 "$door" compare example changed
same heights-lfo 0 "$door" heights example 3 17
same chart 0 "$door" chart
same floor-0xc0200000 0 "$door" floor 0xc0200000
same check 0 "$door" check
expect "a command built again what build had built" [ ! -s "$stand/log" ]
expect "build makes no library" cmp -s "$checkout/target/staticlib/libjuvrada.a" "$stand/version"
run "$door" build
expect "a second build ran: $(cat "$stand/log")" [ "$(cat "$stand/log")" = 'everything: all test' ]

# the estimate, by a clock that goes on by a minute at each look: of the weights 5 to 8 of lists, text, page and sheet 11 are done after text and page
mkdir "$stand/clock"
cat >"$stand/clock/date" <<END
#!/bin/sh
echo x >>'$stand/minutes'
echo \$((60 * \$(wc -l <'$stand/minutes')))
END
chmod +x "$stand/clock/date"
echo later >>"$checkout/crates/page/src/lib.rt"
run env PATH="$stand/clock:$PATH" "$door" sheet example
cat >want <<'END'
juvrada: build: sheet, 4 steps; the first time that takes some minutes
juvrada: build: 2 of 4, about 3 min left
juvrada: build: 3 of 4, about 1 min left
juvrada: build: 4 of 4, less than a minute left
juvrada: build: sheet built in 240 s
END
expect "the estimate is another: $(cat err)" cmp -s err want

# ---- two runs at once

# together COMMAND..: two runs while the first builds
together() {
  echo again >>"$checkout/crates/page/src/lib.rt"
  : >"$stand/log"
  touch "$stand/hold"
  "$@" sheet example >first.out 2>first.err 3>&- &
  local first=$!
  until_so '[ -s "$stand/log" ]'
  "$@" sheet example >second.out 2>second.err 3>&- &
  local second=$!
  until_so 'grep -q waiting second.err'
  rm "$stand/hold"
  wait "$first" && wait "$second"
  expect "two at once: status $?" [ $? -eq 0 ]
  expect "two at once: another sheet" eval 'cmp -s first.out "$page" && cmp -s second.out "$page"'
  expect "two at once: rt was run $(wc -l <"$stand/log") times" [ "$(wc -l <"$stand/log")" -eq 1 ]
  expect "two at once: the second said $(cat second.err)" [ "$(grep -c -v 'waiting for another run that builds' second.err)" -eq 0 ]
  expect "two at once left something in the temporary folder" [ -z "$(ls -A "$TMPDIR")" ]
}

if command -v flock >/dev/null; then together "$door"; else skip "a lock by flock" "no flock"; fi
ln -s "$stand/bin/rt" "$without/rt"
together env PATH="$without" "$door"
expect "a lock is left" [ ! -L "$checkout/target/lock.owner" ]
# a lock whose owner has gone
sh -c 'exit' &
wait $!
ln -s $! "$checkout/target/lock.owner"
echo again >>"$checkout/crates/page/src/lib.rt"
builds 1 "the owner of the lock has gone" env PATH="$without" "$door" sheet example
expect "the lock of an owner that has gone is left" [ ! -L "$checkout/target/lock.owner" ]

# ---- Ctrl-C, as a terminal sends it: to all processes of the group

# A shell can't take a signal that was ignored when it started, as SIGINT is in what runs behind `&`: there the door is given it anew.
listening=()
if env --default-signal=INT true 2>/dev/null; then listening=(env --default-signal=INT); fi

# interrupted SIGNAL STATUS
interrupted() {
  local door_pid prover
  echo again >>"$checkout/crates/page/src/lib.rt"
  rm -f "$stand/prover"
  touch "$stand/hold"
  set -m
  "${listening[@]}" "$door" sheet -o interrupted.svg example >out 2>err 3>&- &
  door_pid=$!
  set +m
  until_so '[ -s "$stand/prover" ] && [ -n "$(ls -A "$TMPDIR")" ]'
  prover=$(cat "$stand/prover")
  kill -s "$1" -- "-$door_pid"
  wait "$door_pid" 2>/dev/null
  got=$?
  expect "$1: status $got" [ "$got" -eq "$2" ]
  until_so "! kill -0 $prover" || kill "$prover"
  expect "$1: something is left in the temporary folder" [ -z "$(ls -A "$TMPDIR")" ]
  expect "$1: a file is left" [ ! -e interrupted.svg ]
  expect "$1: said $(said)" [ -z "$(said)" ]
  rm "$stand/hold"
  builds 1 "the last build was interrupted" "$door" sheet example
}

if [ ${#listening[@]} -gt 0 ] || ! sh -c 'kill -s INT $$' 2>/dev/null; then
  interrupted INT 130 2>/dev/null
else
  skip "Ctrl-C" "SIGINT is ignored here, and env cannot undo that"
fi
interrupted TERM 143 2>/dev/null

# ---- where the script is found

ln -s checkout/juvrada one
ln -s ../one away/two
same sheet-example 0 ./one sheet example
same sheet-example 0 away/two sheet example
same sheet-example 0 env PATH="$scratch/away:$PATH" two sheet example
(cd "$checkout" && sh juvrada sheet ../example) >out 2>err
expect "sh juvrada" cmp -s out "$page"
mkdir $'odd \n-folder\n'
cp -R "$checkout/." $'odd \n-folder\n'
same sheet-example 0 $'odd \n-folder\n/juvrada' sheet example
cp "$juvrada" away/copy
refused "away/copy: expected it in a checkout of Juvrada, or a link to it there" away/copy sheet example

# ---- a checkout that cannot be written

if [ ${#apart[@]} -gt 0 ]; then
  builds 0 "a read-only checkout" frozen "$checkout" "$door" sheet example
  expect "a read-only checkout says something" [ ! -s err ]
  echo again >>"$checkout/crates/page/src/lib.rt"
  builds 0 "a read-only checkout with another source" frozen "$checkout" "$door" sheet example
  expect "a read-only checkout does not say that its program may be old" grep -q '^juvrada: build: sheet is used as it is' err
  refused "$checkout: nothing can be written there" frozen "$checkout" "$door" build
  rm "$checkout/target/bin/sheet"
  refused "$checkout: sheet is not built, and nothing can be written there" frozen "$checkout" "$door" sheet example
fi
PATH=$usual
