# shellcheck shell=bash
# What can be tried of the script ttplan without proving: a copy of it, over crates of no content, with an rt and a program that only act as such.
# Read by tests/desk.sh, which counts.
printf '%s\n' '-- the script around the program'
desk=$scratch/desk kit=$scratch/kit plain=$scratch/plain built=$scratch/desk/target/bin/ttplan.built
mkdir -p "$desk/crates/low/src" "$desk/crates/low/must-fail" "$desk/crates/ttplan/src" "$kit/bin" "$kit/path" "$plain" "$scratch/tmp"
chmod 711 "$scratch"
cp ttplan "$desk/ttplan"
printf '%s\n' '# NAME: what it is built on' 'low:' 'middle: low io' 'other: low' 'ttplan: middle low # the program' >"$desk/crates.txt"
echo one >"$desk/crates/low/src/lib.rt"
echo one >"$desk/crates/low/must-fail/one.edit"
echo '0: ' >"$desk/crates/ttplan/stdout"

# The tools that the script takes, and no other: no rt and no emulator.
for tool in awk cat cp cut dirname find flock grep head mkdir mktemp readlink rm sed setsid sh sha256sum sleep sort tail uname xargs; do
    ln -s "$(command -v $tool)" "$plain/$tool"
done

# The program: does what its second argument names.
cat >"$kit/program" <<'END'
#!/bin/sh
case ${2-fine} in
fine) echo done >&2 ;;
missed | differs) echo "$2" >&2 ;;
refused) printf 'refused 4, byte 8\nand why\n' >&2 && exit ;;
bad) echo 'ttplan: bad: No such file or directory' >&2 && exit ;;
use | '') echo "$2" >&2 && exit ;;
broken) echo 'loader: no library' >&2 && exit 127 ;;
many) echo done >&2 && command -p seq 100000 && exit ;;
deaf) echo done >&2 && trap '' PIPE && { command -p seq 100000 2>/dev/null || echo unwritten >&2; } && exit ;;
*) echo done >&2 && [ "$2" != - ] || cat ;;
esac
{ printf '%s\n' "$#: $*"; } 2>/dev/null || echo unwritten >&2
END

# The toolchain: says what rt says, counts its runs, acts as the file mode has it, and makes no program again that it remembers.
cat >"$kit/bin/rt" <<'END'
#!/bin/sh
kit=$(dirname "$(dirname "$0")")
case $1 in
version) echo 'rattle-kit-0 logic 0' && exit ;;
esac
[ "$*" = run ] && [ -f ../../crates.txt ] && [ -f stdout ] || exit 2
echo run >>"$kit/runs"
exec 3>&1 >&2
echo 'rt: low: begins with what a check kept in another copy'
case $(cat "$kit/mode") in
unproved)
    printf '%s\n' 'rt: chose --jobs 2 for middle' 'fn middle::most: proved' 'fn middle::least: not proved' 'crate middle: modules loaded=30 checked=10' 'logic=not-proved' \
        'rattle build: nothing was built, since only a proved crate is built' 'rt: the library middle did not build, so nothing above it was checked'
    exit 1
    ;;
unread)
    printf '%s\n' 'rt: chose --jobs 2 for middle' 'rattle build: nothing was built, since only a proved crate is built' 'src/lib.rt:13:1: error[unexpected-token]: expected expression, found `}`' \
        'rt: the library middle did not build, so nothing above it was checked'
    exit 1
    ;;
failed)
    echo 'rt: the kit is gone'
    exit 2
    ;;
slow)
    (trap '' INT && sleep 600) &
    : >"$TMPDIR/left"
    echo $$ >"$kit/started"
    sleep 600
    ;;
turn)
    echo $$ >"$kit/started"
    until [ -e "$kit/go" ]; do sleep 0.1; done
    ;;
esac
printf '%s\n' 'rt: chose --jobs 2 for middle' 'fn middle::most: proved' 'statements core: modules loaded=161 checked=0' 'library low: modules loaded=0 checked=0' \
    'crate middle: modules loaded=0 checked=40' 'logic=proved functions=3 sum=0 incremental=trusted'
mkdir -p out
if [ ! -x out/ttplan ] || [ "$(cat out/ttplan.stamp 2>/dev/null)" != "$(cat ../low/src/lib.rt)" ]; then
    command -p cp "$kit/program" out/ttplan
    cat ../low/src/lib.rt >out/ttplan.stamp
fi
printf '%s\n' 'rt: chose --jobs 2 for ttplan' 'fn ttplan::main: proved' 'crate ttplan: modules loaded=0 checked=37' 'axioms libc: libc::write (1 of the 128 declared)' \
    'logic=proved functions=1 axioms=1 sum=0 incremental=trusted' 'rt: running out/ttplan; to give it other input, run that file yourself'
[ "$(cat "$kit/mode")" != stray ] || echo stray >&3
[ "$(cat "$kit/mode")" != fallen ] || exit 139
exec out/ttplan >&3
END

# The emulator that is put on the path.
printf '%s\n' '#!/bin/sh' 'exec "$@"' >"$kit/path/qemu-x86_64"
chmod +x "$kit/program" "$kit/bin/rt" "$kit/path/qemu-x86_64"
emulator='' hint=''
[ "$(uname -m)" = x86_64 ] || emulator=:$kit/path hint=' (QEMU_LD_PREFIX must name a folder with the C library for x86-64)'

# run ARGUMENTS: as before, now the copy, with this path.
run() {
    PATH=$path TMPDIR=$scratch/tmp "$desk/ttplan" "$@" >"$scratch/out" 2>"$scratch/err"
    status=$?
}

# acts MODE: how rt acts from now on, and that it has not run yet.
acts() {
    echo "$1" >"$kit/mode"
    : >"$kit/runs"
    rm -f "$kit/started" "$kit/go"
}

# builds REASON: the next call builds, for this reason, and shows how far it is.
builds() {
    acts well
    run show fine
    [ "$status" -eq 0 ] && [ "$(cat "$scratch/out")" = '2: show fine' ] && printf '%s\n' \
        "ttplan: proving and building the program, since $1; the first time this takes about twelve minutes" \
        'ttplan: proved 2 of 3: middle (3 functions)' 'ttplan: proved 3 of 3: ttplan (1 function)' | cmp -s - "$scratch/err" && [ -z "$(ls -A "$scratch/tmp")" ]
    verdict "the program is built where $1"
}

# builds_not TEXT: the next call does not build, though it could.
builds_not() {
    acts well
    run show fine
    [ "$status" -eq 0 ] && [ ! -s "$kit/runs" ] && [ ! -s "$scratch/err" ]
    verdict "the program is not built again $1"
}

# fails_with TEXT MODE STATUS: with rt in this mode, which ends with this status, a build fails with this text, and leaves nothing that is run later.
fails_with() {
    acts "$2"
    echo "$2" >"$desk/crates/low/src/lib.rt"
    run show fine
    [ "$status" -eq 2 ] && [ ! -s "$scratch/out" ] && [ "$(tail -n 1 "$scratch/err")" = "ttplan: the program could not be built: $1. rt ended with status $3, and all that it said is in $desk/target/log/ttplan-build.log" ] &&
        grep -q '^rt: ' "$desk/target/log/ttplan-build.log" && [ -z "$(ls -A "$scratch/tmp")" ] && [ ! -e "$built" ]
    verdict "a build fails: $1"
}

# comes FILE: waits until something is in it, for ten seconds at most.
comes() {
    for _ in $(seq 100); do
        [ ! -s "$1" ] || return 0
        sleep 0.1
    done
}

# living GROUP: the processes of a group that have not ended.
living() {
    cat /proc/[0-9]*/stat 2>/dev/null | awk -v group="$1" '$5 == group && $3 != "Z"'
}

# ends_build SIGNAL STATUS: a build that gets this signal ends with this status and leaves no process and no temporary file.
ends_build() {
    acts slow
    rm -f "$built"
    set -m
    PATH=$path TMPDIR=$scratch/tmp "$desk/ttplan" show fine >"$scratch/out" 2>"$scratch/err" &
    set +m
    comes "$kit/started"
    kill -s "$1" $!
    wait $!
    status=$?
    [ "$status" -eq "$2" ] && [ ! -s "$scratch/out" ] && [ -z "$(ls -A "$scratch/tmp")" ] && [ ! -e "$built" ] && [ -z "$(living "$(cat "$kit/started")")" ]
    verdict "SIG$1 ends a build with $2, and leaves no process and no temporary file"
}

# told STATUS OUT ERR ARGUMENTS: this status, exactly this on standard output and this on standard error.
told() {
    local wanted=$1 out=$2 err=$3
    shift 3
    run "$@"
    [ "$status" -eq "$wanted" ] && [ "$(cat "$scratch/out")" = "$out" ] && [ "$(cat "$scratch/err")" = "$err" ]
    verdict "ttplan $*: status $wanted${out:+, answers ${out%%$'\n'*}}${err:+, says ${err%%$'\n'*}}"
}

# unwritten PLACE ARGUMENTS: an answer that cannot be written there is said.
unwritten() {
    local place=$1
    shift
    : >"$scratch/out"
    if [ "$place" = closed ]; then PATH=$path "$desk/ttplan" "$@" >&- 2>"$scratch/err"; else PATH=$path "$desk/ttplan" "$@" >"$place" 2>"$scratch/err"; fi
    status=$?
    [ "$status" -eq 2 ] && [ "$(cat "$scratch/err")" = 'ttplan: the output could not be written' ]
    verdict "ttplan $* with standard output $place says so"
}

# Help and versions need no toolchain and no program.
path=$plain
run help
[ "$status" -eq 0 ] && [ ! -s "$scratch/err" ] && [ "$(awk 'length($0) > 80' "$scratch/out")" = '' ]
verdict 'ttplan help fits 80 columns'
cp "$scratch/out" "$scratch/overview"
for option in --help -h; do
    run $option
    [ "$status" -eq 0 ] && cmp -s "$scratch/out" "$scratch/overview"
    verdict "ttplan $option is ttplan help"
done
for name in show check plan replan extend lists hold due times words file up back help; do
    run help $name
    cp "$scratch/out" "$scratch/help"
    [ "$status" -eq 0 ] && grep -q "^ttplan $name " "$scratch/overview" && head -n 1 "$scratch/help" | grep -q "^use: ttplan $name " && grep -q "^example   .*ttplan $name" "$scratch/help" &&
        [ "$(wc -l <"$scratch/help")" -ge 4 ] && [ "$(wc -l <"$scratch/help")" -le 10 ] && [ "$(awk 'length($0) > 80' "$scratch/help")" = '' ]
    verdict "ttplan help $name"
    for option in --help -h; do
        run $name one $option two
        [ "$status" -eq 0 ] && cmp -s "$scratch/out" "$scratch/help" && [ ! -s "$scratch/err" ]
        verdict "ttplan $name $option is ttplan help $name"
    done
done
for file in $(grep -o 'examples/[^ ]*' ttplan | sort -u); do
    [ -f "$file" ]
    verdict "the help names $file, which is there"
done
is_bad 'no such command: nosuch; they are show, check, plan,' help nosuch
is_bad 'no such command: nosuch; they are show, check, plan,' nosuch one
is_bad 'no such command: ;' ''
is_bad 'use: ttplan help [COMMAND]' help show check
is_bad 'use: ttplan --version' --version now
is_bad 'no such option: --verbose' --verbose
is_bad 'no such option: -v (a name that begins with - goes behind --)' check -v one
is_bad 'losses is no command of its own any more: ttplan check FILE PROPOSAL shows them' losses one two
is_bad 'standard input (-) can be given once' check - -
is_bad 'standard input (-) can be given once' check - -- -
told 0 'ttplan 1.0
no program that can be run, since there is none: the next command proves and builds it' '' --version
unwritten /dev/full help
unwritten closed help check
is_bad 'the program must be proved and built, since there is none, and rt is not on the path' show fine

# Building.
path=$kit/bin:$plain$emulator
chmod a-w "$desk"
nobody=''
[ "$(id -u)" -ne 0 ] || nobody='setpriv --reuid=65534 --regid=65534 --clear-groups'
$nobody env PATH="$path" "$desk/ttplan" show fine >"$scratch/out" 2>"$scratch/err"
status=$?
[ "$status" -eq 2 ] && [ "$(cat "$scratch/err")" = "ttplan: the folder $desk/target cannot be written, so that the program cannot be built there" ]
verdict 'a folder that cannot be written is said'
chmod u+w "$desk"
builds 'there is none'
builds_not 'while its sources stay'
told 0 "ttplan 1.0
commit unknown
proved by rattle-kit-0 logic 0, 3 crates
$(PATH=$path "$desk/ttplan" --version | tail -n 1)" '' --version
echo two >"$desk"/crates/low/must-fail/one.edit
builds_not 'for a must-fail edit'
echo two >"$desk"/crates/low/src/lib.rt
says 0 'no program that can be run, since its sources have changed: the next command proves and builds it' --version
path=$plain
is_bad 'since its sources have changed, and rt is not on the path' show fine
path=$kit/bin:$plain$emulator
builds 'its sources have changed'
rm "$built"
builds 'nothing tells what the one that is there was made of'
rm "$desk/target/bin/ttplan"
builds 'there is none'
echo '# another' >>"$desk/target/bin/ttplan"
builds 'the one that is there is not the one that was built'
builds_not 'once it is the one that was built'
fails_with 'fn middle::least: not proved' unproved 1
fails_with 'the library middle did not build, so nothing above it was checked' unread 1
fails_with 'the run of out/ttplan failed' fallen 139
fails_with 'what the program wrote is not what crates/ttplan/stdout has' stray 0
fails_with 'the kit is gone' failed 2
ends_build INT 130
ends_build TERM 143
ends_build HUP 129
builds 'nothing tells what the one that is there was made of'

acts turn
echo three >"$desk"/crates/low/src/lib.rt
PATH=$path "$desk/ttplan" show fine >"$scratch/first" 2>&1 &
comes "$kit/started"
PATH=$path "$desk/ttplan" show fine >"$scratch/out" 2>"$scratch/err" &
comes "$scratch/err"
: >"$kit/go"
wait $!
status=$?
wait
[ "$status" -eq 0 ] && [ "$(cat "$scratch/out")" = '2: show fine' ] && [ "$(cat "$scratch/err")" = 'ttplan: another call is building the program; this one waits for it' ] && [ "$(wc -l <"$kit/runs")" -eq 1 ]
verdict 'of two calls at once one builds and the other waits'

# Running, with no toolchain on the path.
path=$plain$emulator
told 0 '0: ' ''
told 0 '3: check fine two' '' check fine two
told 1 '2: times missed' '' times missed
told 1 '5: hold differs b c 1' '' hold differs b c 1
for name in plan replan extend file words due; do
    told 1 '' 'refused 4, byte 8
and why' $name refused
done
for name in check show lists hold times up back; do
    told 1 'refused 4, byte 8
and why' '' $name refused
done
told 2 '' 'ttplan: bad: No such file or directory' plan bad
told 2 '' 'ttplan: use: ttplan check FILE PROPOSAL' check use
told 2 '' 'ttplan: use: ttplan show FILE [PROPOSAL]' show use
told 2 '' "ttplan: the program did not end as it should$hint
loader: no library" show broken
told 2 '' "ttplan: the program did not end as it should$hint" show ''
told 0 '3: check -odd.words --help' '' check -- -odd.words --help
told 0 '3: check -- two' '' check -- -- two
echo given >"$scratch/given"
run show - <"$scratch/given"
[ "$status" -eq 0 ] && [ "$(cat "$scratch/out")" = 'given
2: show -' ]
verdict 'ttplan show - has the standard input'
unwritten /dev/full show fine
unwritten /dev/full check refused
unwritten closed show fine
for name in many deaf; do
    PATH=$path "$desk/ttplan" show $name 2>"$scratch/err" | head -n 1 >"$scratch/out"
    status=${PIPESTATUS[0]}
    [ "$status" -eq 141 ] && [ "$(cat "$scratch/out")" = 1 ] && [ ! -s "$scratch/err" ]
    verdict "ttplan show $name | head -n 1 ends quietly"
done

# In an unpacked archive, which has no crates and knows of no toolchain.
mkdir -p "$scratch/archive/bin"
cp ttplan "$scratch/archive"
cp "$desk/target/bin/ttplan" "$scratch/archive/bin"
cp "$built" "$scratch/archive/bin"
desk=$scratch/archive
path=$kit/bin:$kit/path:$plain
acts well
told 0 '3: check fine two' '' check fine two
says 0 'proved by rattle-kit-0 logic 0, 3 crates' --version
if [ "$(uname -m)" != x86_64 ]; then
    says 0 "under $kit/path/qemu-x86_64" --version
    path=$plain
    is_bad "this machine ($(uname -m)) needs an emulator for x86-64, qemu-x86_64" check fine two
    says 0 'needs an emulator on this machine' --version
fi
path=$kit/bin:$kit/path:$plain
echo '# another' >>"$desk/bin/ttplan"
is_bad 'the program cannot be run, since the one that is there is not the one that was built: unpack the archive again' check fine two
[ ! -s "$kit/runs" ]
verdict 'an archive is never built'
