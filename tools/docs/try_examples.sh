#!/bin/sh
# Runs the examples and compares what is printed, and each status: the changes below `examples/changes`, each with its certificate
# and its descriptor sets; the commands of README.md, of the pages below `docs`, and of the page for `man`; the script for continuous
# integration; what the scripts that start the program say on a terminal; and what `main` ends with on a full device, on an argument that
# isn't UTF-8, and where memory is refused.
# usage: tools/docs/try_examples.sh [--without-memory] [PROGRAM]    by default the script `protogate` at the top, which starts the proved program
# alone. With --without-memory no memory is refused: a program that is compiled with checks doesn't ask the C library for it.
# Blocks of commands that call `protoc` want it on the path, and are passed over, with a line, where it isn't; so is what
# is said on a terminal where there is no `script` of util-linux, or none of the other tools that it takes, and what is said where
# memory is refused where there is no `cc`.
set -u
root=$(CDPATH= cd -- "$(dirname -- "$0")/../.." && pwd -P) || exit 3
refuses=yes
if [ "${1-}" = --without-memory ]; then
    refuses=no
    shift
fi
program=$(readlink -f -- "${1:-"$root/protogate"}") || exit 3
export PROTOGATE_PROVED_ONLY=1
for name in $(env | sed -n 's/^\(GIT_[A-Z_]*\)=.*/\1/p'); do
    unset "$name"
done
"$program" --version >/dev/null
[ $? -ne 127 ] || exit 3
room=$(mktemp -d) || exit 3
trap 'rm -rf -- "$room"' EXIT
passed=0
failed=0

# Counts what was compared: a name, what was wanted, what was said.
compare() {
    if [ "$2" = "$3" ]; then
        passed=$((passed + 1))
    else
        failed=$((failed + 1))
        printf '%s\nwanted:\n%s\nsaid:\n%s\n' "$1" "$2" "$3"
    fi
}

# What a call prints, and its status in a last line.
said_by() {
    "$program" "$@"
    echo "status $?"
}

# The gate on the two source files of a change, with these further words, says what a file has. Its certificate shows the same; of the two
# files' sets the gate says the same but for positions; and a witness is, by the old file, read and written again unchanged.
try_says() {
    example=$1
    says=$2
    words=$3
    sides="--old-dir $example --new-dir $example --old old.proto --new new.proto"
    type=$(sed -n '1s/^[a-z]* \([^ ]*\).*/\1/p' "$says")
    case $(cat -- "$says") in
        compatible*) status='status 0' ;;
        *) status='status 1' ;;
    esac
    compare "$says" "$(cat -- "$says" && echo "$status")" "$(said_by gate $sides --type "$type" $words)"
    "$program" gate $sides --type "$type" $words --cert >certificate
    compare "$says: certificate" "$(sed -n 1p "$says" && echo "$status")" "$(said_by verify $sides certificate)"
    "$program" compile --dir "$example" old.proto >old.pb
    "$program" compile --dir "$example" new.proto >new.pb
    compare "$says: sets" "$(sed 's/ [^ ]*:[0-9]*:[0-9]*/ -/g' "$says" && echo "$status")" \
        "$(said_by gate --old old.pb --new new.pb --type "$type" $words)"
    for witness in $(sed -n 's/^witness //p' "$says"); do
        compare "$says: witness" "$(echo "again $witness" && echo 'status 0')" \
            "$(said_by show --dir "$example" --file old.proto --type "$type" "$witness" | tail -n 2)"
    done
}

# A change by numbers, and by names where it has a file for that.
try_change() {
    try_says "$1" "$1/says" ''
    if [ -f "$1/says_by_names" ]; then
        try_says "$1" "$1/says_by_names" '--view names'
    fi
}

# Writes each block of a document that begins with a line '$ ..' to a file of its own, block.001 onwards, in the order of the page.
blocks_of() {
    awk '
        /^```/ { in_block = !in_block; is_first = in_block; file = ""; next }
        in_block && is_first && /^\$ / { file = sprintf("block.%03d", ++count) }
        in_block { is_first = 0 }
        file != "" { print > file }
    ' "$1"
}

# The shell script that types a block again: each command after its own lines, with the status of the one before it.
commands_of() {
    awk '
        function run() { if (command != "") print "(exit $status)\n" command "status=$?"; command = "" }
        BEGIN { print "status=0" }
        /^\$ / { run(); command = substr($0, 3) "\n" }
        /^> / { command = command substr($0, 3) "\n" }
        /^[$>] / { print "cat <<\047END OF A LINE\047\n" $0 "\nEND OF A LINE"; next }
        END { run() }
    ' "$1"
}

# Runs the blocks of a document, one after another in one folder, and compares what comes after each command. A document may have none.
try_document() {
    rm -f block.*
    blocks_of "$1"
    compare "$1: blocks of commands" "$(grep -q '^\$ ' "$1" && echo some || echo none)" "$([ -e block.001 ] && echo some || echo none)"
    for block in block.*; do
        [ -e "$block" ] || continue
        if ! command -v protoc >/dev/null && grep -q '^\$ protoc ' "$block"; then
            echo "passed over, without protoc: $1, $block"
            continue
        fi
        commands_of "$block" >typed
        compare "$1, $block" "$(cat "$block")" "$(sh ./typed 2>&1)"
    done
}

# A repository that has `examples/old` as its folder `proto` at the tag v1.4, and `examples/new` in its work tree.
make_release() {
    export GIT_CONFIG_NOSYSTEM=1 GIT_CONFIG_GLOBAL=/dev/null
    git -c init.defaultBranch=main init -q && cp -R examples/old proto && git add proto \
        && git -c user.name=nobody -c user.email=nobody@example.org commit -q -m v1.4 && git tag v1.4 \
        && cp examples/new/* proto
}

# The examples of the page for `man`, in a folder that has such files.
try_manual() {
    mkdir -p -- "$room/manual/released" && cd -- "$room/manual" || exit 3
    sed 's/^syntax.*/& package shop;/' "$root/examples/old/order.proto" >released/order.proto
    sed 's/^syntax.*/& package shop;/' "$root/examples/new/order.proto" >order.proto
    sed -n '/^\.SH EXAMPLE/,/^\.fi/p' "$root/docs/protogate.1" | sed '/^protogate/!d; s/\\-/-/g; s/$/; echo "status $?"/' >typed
    compare "docs/protogate.1, EXAMPLE" "$(cat <<'END'
breaks shop.Order 3
witness 220180
step 4 shop.Order.note order.proto:7:9 shop.Order.note order.proto:7:10
old
4 note bytes 80
again 220180
new
refused E604 at 0
status 1
status 1
breaks shop.Order 3
status 1
cause value 11 10ffffffffffffffffff01 2 shop.Order.quantity order.proto:5:9 shop.Order.quantity order.proto:5:10
cause value 3 220180 4 shop.Order.note order.proto:7:9 shop.Order.note order.proto:7:10
breaks shop.Order 3
compatible shop.Customer
status 1
status 0
compatible shop.Order
status 0
4 note text 61
again 220161
status 0
shop.Order
shop.Customer
status 0
END
)" "$(sh ./typed 2>&1)"
    cd -- "$room/top" || exit 3
}

# The status of a call, whatever it prints.
try_status() {
    wanted=$1
    shift
    compare "$*" "status $wanted" "$("$@" >/dev/null 2>&1; echo "status $?")"
}

# A repository's scripts with a program that answers by its first word: `gate` goes on until it is said to be at work, `gate-all` takes longer
# than that, `show` takes no time, `verify` stops, `types` refuses, and `compile` says what the C library is asked for. The scripts say so after
# three seconds instead of one: on a busy machine what takes no time may take that.
make_slow_program() {
    mkdir -p slow/tools/dist slow/docs slow/crates/protogate/out slow/crates/protogate/src slow/crates/protogate/specs && cp -- "$root/protogate" slow && cp -R -- "$root/examples" slow \
        && cp -R -- "$root/tools/install.sh" "$root/tools/report.py" slow/tools \
        && cp -R -- "$root/tools/dist/completions" slow/tools/dist \
        && cp -- "$root/docs/protogate.1" "$root/docs/protogate-ci.1" "$root/docs/protogate-report.1" slow/docs \
        && : >slow/crates.txt || return 1
    sed -i 's/^    sleep 1$/    sleep 3/; s/^AT_WORK = 1$/AT_WORK = 3/' slow/protogate slow/tools/install.sh slow/examples/ci/said.py
    [ "$(grep -lE '^    sleep 3$|^AT_WORK = 3$' slow/protogate slow/tools/install.sh slow/examples/ci/said.py | wc -l)" -eq 3 ] || return 1
    cat >slow/crates/protogate/out/protogate <<'END'
#!/bin/sh
case $1 in
    gate) for turn in $(seq 600); do ! grep -q 'at work' "$typed" || break; sleep 0.1; done ;;
    gate-all) sleep 4 ;;
    verify) kill -STOP $$ ;;
    show) ;;
    compile) echo "$GLIBC_TUNABLES" ;;
    types) echo 'refused E301 gone.proto' && exit 2 ;;
    *) exit 4 ;;
esac
END
    chmod 755 slow/crates/protogate/out/protogate || return 1
    stamp=slow/crates/protogate/out/protogate.begun
    printf 'no kit\n0 none\nnone\nprotogate\n' >"$stamp"
    if kit=$(command -v rt); then
        kit=$(readlink -f -- "$kit")
        printf 'a kit\n%s %s\n%s\nprotogate\n' "$(stat -c %i -- "$kit")" "$(sha256sum <"$kit" | cut -d ' ' -f 1)" "$kit" >"$stamp"
    fi
    slow/tools/install.sh "slow/o'clock" >/dev/null
}

# What a shell prints on a terminal that runs these lines, where `$slow` is the script that starts the program, and `$typed` has what is printed.
said_on_terminal() {
    typed=$room/typed
    rm -f -- "$typed"
    SHELL=/bin/sh slow=$1 typed=$typed script -qefc "$2" "$typed" </dev/null | tr -d '\r'
}

# A shell that starts a run which stops itself, and goes on with it three seconds and more after it has stopped.
stopped='"$slow" verify & for turn in $(seq 600); do case $(ps -o stat= -p $!) in T*) break ;; esac; sleep 0.2; done; sleep 4; kill -CONT $!; wait'

# A run of some seconds is said to be at work, by its first word alone, and only where standard error is a terminal. One that has
# ended isn't, whether or not anybody waits for it, nor one that is stopped. The script leaves no process that has a file open.
try_terminal() {
    at_work='protogate: still at work: gate'
    compare "$1: some seconds" "$at_work" "$(said_on_terminal "$1" '"$slow" gate "a\\nb" "$(printf "\033[7m")"')"
    compare "$1: not on a terminal" "" "$(said_on_terminal "$1" '"$slow" gate-all 2>said; cat said')"
    compare "$1: ended" "" "$(said_on_terminal "$1" '"$slow" show; sleep 4')"
    compare "$1: ended, and not waited for" "" "$(said_on_terminal "$1" '"$slow" show & exec sleep 4')"
    compare "$1: stopped" "" "$(said_on_terminal "$1" "$stopped")"
    compare "$1: an open file" "free" "$(said_on_terminal "$1" '(flock -n 9; "$slow" show) 9>lock; flock -w 0.5 lock echo free')"
}

# What is refused is shown in words, once, and only where standard error is a terminal.
try_words() {
    line='refused E301 gone.proto'
    words='error[E301]: The file was not found.
 --> gone.proto'
    compare "$1: words" "$line
$words" "$(said_on_terminal "$1" '"$slow" types gone.proto' | head -n 3)"
    compare "$1: the status" "status 2" "$(said_on_terminal "$1" '"$slow" types gone.proto >said 2>&1; echo "status $?"')"
    compare "$1: words elsewhere" "$line" "$(cat said)"
    compare "$1: the status with words" "status 2" "$(said_on_terminal "$1" '"$slow" types gone.proto >said; echo "status $?"' | tail -n 1)"
    compare "$1: standard output" "$line" "$(cat said)"
    compare "$1: no words" "$line" "$(PROTOGATE_WORDS=no said_on_terminal "$1" '"$slow" types gone.proto')"
}

# Large pages and no fast bins are asked for, where the user asks the C library for nothing else.
try_pages() {
    compare "$1: pages" glibc.malloc.hugetlb=1:glibc.malloc.mxfast=0 "$(env -u GLIBC_TUNABLES "$1" compile)"
    compare "$1: what the user asks for" glibc.malloc.arena_max=1 "$(env GLIBC_TUNABLES=glibc.malloc.arena_max=1 "$1" compile)"
}

# What is said on a terminal of the script at the top, and of the one that is installed.
try_terminals() {
    for tool in script ps flock; do
        if ! command -v "$tool" >/dev/null; then
            echo "passed over, without $tool: what is said on a terminal"
            return
        fi
    done
    if ! script --version 2>/dev/null | grep -q util-linux; then
        echo "passed over, with another script than that of util-linux: what is said on a terminal"
        return
    fi
    for slow_one in slow/protogate "slow/o'clock/bin/protogate"; do
        try_terminal "$slow_one"
        try_words "$slow_one"
        export PROTOGATE_WORDS=no
        try_terminal "$slow_one"
        unset PROTOGATE_WORDS
    done
}

# What is printed on standard error, and the status, where the output's device is full.
said_on_full_device() {
    "$program" "$@" 2>&1 >/dev/full
    echo "status $?"
}

# The built program: what is called, or what the script at the top starts.
built_program() {
    case $(head -c 4 -- "$program") in
        *ELF) echo "$program" ;;
        *) echo "$root/crates/protogate/out/protogate" ;;
    esac
}

# Runs a call with each growth of memory refused in turn: each time it says what it says else, with the same status, or that memory was
# refused, and some growth is.
try_refused_memory() {
    "$built" "$@" >whole
    wanted=$?
    turn=0
    refused=0
    wrong=0
    while :; do
        turn=$((turn + 1))
        REFUSE_MEMORY=$turn LD_PRELOAD="$room/refuse.so" "$built" "$@" >said 2>faults
        status=$?
        if ! grep -qx 'growth refused' faults; then
            break
        elif [ "$status" -eq 3 ] && [ "$(cat said)" = 'refused E001' ]; then
            refused=$((refused + 1))
        elif [ "$status" -ne "$wanted" ] || ! cmp -s whole said; then
            wrong=$((wrong + 1))
        fi
    done
    compare "$*: growths refused" "some told, 0 wrong" "$([ "$refused" -gt 0 ] && echo some || echo none) told, $wrong wrong"
}

# Refuses memory in turn to each subcommand, to help and to a word that is none.
try_memory() {
    if [ $refuses = no ]; then
        echo "passed over, of a program with checks: what is said where memory is refused"
        return
    elif ! command -v cc >/dev/null; then
        echo "passed over, without cc: what is said where memory is refused"
        return
    fi
    built=$(built_program)
    cc -O2 -shared -fPIC -o "$room/refuse.so" "$root/tools/rows/refuse_memory.c" -ldl || exit 3
    sides='--old-dir examples/old --new-dir examples/new --old order.proto --new order.proto'
    "$program" gate $sides --type Order --cert >Order.cert
    try_refused_memory compile --dir examples/new order.proto
    try_refused_memory gate $sides --type Order
    try_refused_memory gate $sides --type Order --both --explain
    try_refused_memory gate $sides --type Order --cert
    try_refused_memory gate $sides --type Nothing
    try_refused_memory gate-all $sides
    try_refused_memory gate-all $sides --view names --explain
    try_refused_memory gate-all --old Order.cert --new Order.cert
    try_refused_memory verify $sides Order.cert
    try_refused_memory show --dir examples/new --file order.proto --type Customer 08071a0161
    try_refused_memory show --help
    try_refused_memory types --dir examples/new order.proto
    try_refused_memory types --dir examples/new
    try_refused_memory relay
}

cp -R -- "$root/examples/changes" "$room/changes" || exit 3
cd -- "$room/changes" || exit 3
for example in */; do
    try_change "${example%/}"
done

mkdir -- "$room/top" && cp -R -- "$root/examples" "$room/top/examples" && cd -- "$room/top" || exit 3
printf '#!/bin/sh\nexec "$PROGRAM" "$@"\n' >protogate && chmod 755 protogate || exit 3
mkdir tools && cp -- "$root/tools/report.py" tools || exit 3
PROGRAM=$program
PATH=$room/top:$PATH
export PROGRAM PATH
make_release || exit 3
for document in "$root/README.md" "$root"/docs/*.md; do
    try_document "$document"
done
try_manual
gate=examples/ci/gate.sh
try_status 0 "$gate" v1.4 proto Customer
try_status 1 "$gate" v1.4 proto
try_status 2 "$gate" v1.4 proto Order Nobody Customer
try_status 4 "$gate" v0.1 proto
try_status 127 env PROTOGATE="$room/none" "$gate" v1.4 proto
compare "a full device" "status 3" "$(said_on_full_device compile --dir examples/new order.proto)"
compare "a full device, of help" "status 3" "$(said_on_full_device --help)"
compare "a word that isn't UTF-8" "$(echo 'error: invalid UTF-8 was detected in one or more arguments' && echo 'status 4')" \
    "$(said_by gate "$(printf '\377')")"
mkdir -- "$room/circle" "$room/circle/b.proto" "$room/circle/c.proto" || exit 3
printf 'syntax = "proto3";\nimport "b.proto";\n' >"$room/circle/a.proto" || exit 3
compare "a folder in the place of a file" "$(echo 'refused E309 c.proto' && echo 'status 3')" "$(said_by compile --dir "$room/circle" c.proto)"
compare "a folder in the place of a file that is imported" "$(echo 'refused E309 b.proto' && echo 'status 3')" \
    "$(said_by compile --dir "$room/circle" a.proto)"
try_memory
compare "a slow program" "status 0" "$(make_slow_program; echo "status $?")"
compare "an installed program" "status 4" "$("slow/o'clock/bin/protogate" relay; echo "status $?")"
try_pages slow/protogate
try_pages "slow/o'clock/bin/protogate"
try_terminals
echo "examples: $passed passed, $failed failed"
[ "$failed" -eq 0 ]
