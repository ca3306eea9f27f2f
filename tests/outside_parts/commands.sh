# shellcheck shell=bash disable=SC2154
# The commands `reseal`, `extract` and `audit` where the outside fails, where files change while they are read, and over hostile messages. Part of tests/outside, which reads it.

# How much of addresses, in KiB, how many seconds and how many open files these commands may take over hostile messages.
room=100000
seconds=20
open_files=80

# What the three commands read: a second key `old`, messages under it, and an audit file of three keys. What is resealed is opened by `ring`.
make_commands() {
    echo 'old name 202122232425262728292a2b2c2d2e2f303132333435363738393a3b3c3d3e3f' >old
    "$program" encrypt --keyring old --frame 4 'a=b' <nine >old_framed
    "$program" encrypt --keyring old <plain >old_message
    "$program" encrypt --keyring three 'set:=x' <nine >triple
    printf '{"version":1,"keyring":"three","messages":[{"from":"framed"},{"from":"triple","given":{"set":"x"}}]}' >audited
    printf '%s\n' 'message 1 opened-by 1' 'message 2 opened-by 1 2 3' 'leaf 1 needed-for 1' 'leaf 2 needed-for none' 'leaf 3 needed-for none' >audit_lines
    printf 'ne h' >middle
}

# Writes an audit file: audit_file FILE KEYRING MESSAGE..
audit_file() {
    local file=$1 keyring=$2 all='' one
    shift 2
    for one in "$@"; do all="$all${all:+,}{\"from\":\"$one\"}"; done
    printf '{"version":1,"keyring":"%s","messages":[%s]}\n' "$keyring" "$all" >"$file"
}

# What may have been written: CHECK WHAT OUTPUT STATUS
range_or_front() { if [ "$3" = 0 ]; then all_or_nothing "$1" "$2" 0 middle; else front "$1" "$2" middle; fi; }
lines_or_nothing() { all_or_nothing "$1" "$2" "$3" audit_lines; }
front_of_lines() { front "$1" "$2" audit_lines; }

# Memory that is refused in the line of the refusal or of the context leaves what was written by then: a cut message, or all of it.
cut_or_all_of_nine() {
    if "$program" decrypt --keyring ring <"$2" >/dev/null 2>&1; then opens_as "$1" "$2" nine; else cut_of_nine "$1" "$2"; fi
}

# The message is whole where all was done, and where the call that failed was that of the report; else it is cut.
resealed_nine() {
    local line=
    case $3 in
        137) line=$(grep '^write' trace | tail -n 1) ;;
        4) line=$(grep INJECTED trace || true) ;;
    esac
    if [ "$3" = 0 ] || [[ $line == 'write(2,'* ]]; then opens_as "$1" "$2" nine; else cut_of_nine "$1" "$2"; fi
}

# ---- streams

closed_streams_of_commands() {
    closed_streams_of reseal old_framed --keyring old --to-keyring ring
    closed_streams_of extract nine --keyring ring --from framed --at 2 --count 4
    closed_streams_of audit nine --jobs audited
}

full_outputs_of_commands() {
    local status=0
    "$program" reseal --keyring old --to-keyring ring <old_message >/dev/full 2>report || status=$?
    ended "reseal into a full device" "$status" 4 'esdk: X2 SinkFault'
    status=0
    "$program" extract --keyring ring --from message --at 5 --count 900000 >/dev/full 2>report || status=$?
    ended "extract into a full device" "$status" 4 'esdk: X2 SinkFault'
    status=0
    "$program" audit --jobs audited >/dev/full 2>report || status=$?
    ended "audit into a full device" "$status" 4 'esdk: X2 SinkFault'
    status=0
    "$program" reseal --keyring old --to-keyring ring <old_framed >output 2>/dev/full || status=$?
    : >report
    ended "reseal with a full report" "$status" 4 ''
    opens_as "reseal with a full report" output nine
    status=0
    head -c 300 old_message | "$program" reseal --keyring old --to-keyring ring >output 2>/dev/full || status=$?
    ended "reseal of a cut message with a full report" "$status" 1 ''
    cut_of_nine "reseal of a cut message with a full report" output
    { status=0; "$program" reseal --keyring old --to-keyring ring <old_message 2>report || status=$?; echo "$status" >ended; } | head -c 100000 >output
    ended "reseal into a pipe that is closed" "$(cat ended)" 4 'esdk: X2 SinkFault'
    cut_message "reseal into a pipe that is closed" output plain
    { status=0; "$program" extract --keyring ring --from message --at 0 --count 1000000 2>report || status=$?; echo "$status" >ended; } | head -c 100 >output
    ended "extract into a pipe that is closed" "$(cat ended)" 4 'esdk: X2 SinkFault'
    front "extract into a pipe that is closed" output plain
    { sleep 0.5; status=0; "$program" audit --jobs audited 2>report || status=$?; echo "$status" >ended; } | true
    ended "audit into a pipe that is closed" "$(cat ended)" 4 'esdk: X2 SinkFault'
    full_disk_of_commands
}

full_disk_of_commands() {
    local status=0
    if ! mount -t tmpfs -o size=128k tmpfs small 2>/dev/null; then
        echo "reseal and extract onto a full disk: not tried, since no disk could be mounted"
        return
    fi
    "$program" reseal --keyring old --to-keyring ring <old_message >small/message 2>report || status=$?
    ended "reseal onto a disk that fills" "$status" 4 'esdk: X2 SinkFault'
    cut_message "reseal onto a disk that fills" small/message plain
    rm small/message
    status=0
    "$program" extract --keyring ring --from message --at 0 --count 1000000 >small/plain 2>report || status=$?
    ended "extract onto a disk that fills" "$status" 4 'esdk: X2 SinkFault'
    front "extract onto a disk that fills" small/plain plain
    rm small/plain
    umount small
}

# ---- files that are none

# Runs with a time limit, and counts it as wrong where the answer isn't X3 at once, or something was written: refused_at_once WHAT WORDS..
refused_at_once() {
    local what=$1 status=0
    shift
    timeout 10 "$program" "$@" <old_framed >output 2>report || status=$?
    judge_place "$what" "$status" 4 'esdk: X3 ShelfFault' nothing
}

# A pipe, links to one, to themselves and to nothing, a socket, devices, a folder, a name that goes through a file, and an empty one, in place of each file that is named.
files_of_commands() {
    local name
    : >answers
    mkfifo pipe
    ln -s pipe soft_pipe
    ln -s loop loop
    ln -s other_end ring_end
    ln -s ring_end other_end
    ln -s nowhere loose
    python3 -c 'import socket; socket.socket(socket.AF_UNIX).bind("socket")' 2>/dev/null || true
    for name in pipe soft_pipe loop ring_end loose socket folder folder/ /dev/null /dev/zero absent nine/under ''; do
        refused_at_once "extract --from $name" extract --keyring ring "--from=$name" --at 0 --count 1
        refused_at_once "extract --from $name of no bytes" extract --keyring ring "--from=$name" --at 0 --count 0
        refused_at_once "extract --keyring $name" extract "--keyring=$name" --from framed --at 0 --count 1
        refused_at_once "reseal --keyring $name" reseal "--keyring=$name" --to-keyring ring
        refused_at_once "reseal --to-keyring $name" reseal --keyring old "--to-keyring=$name"
        refused_at_once "audit --jobs $name" audit "--jobs=$name"
        audit_file auditing "$name" framed
        refused_at_once "an audit with $name as keyring file" audit --jobs auditing
        audit_file auditing ring framed "$name" framed
        refused_at_once "an audit with $name as message" audit --jobs auditing
    done
    if [ ! -p pipe ] || [ ! -L loop ] || [ ! -d folder ]; then fail "files that are none" "one of them is gone"; fi
    show_places "a pipe, a link to itself, a socket, a device, a folder or nothing as a file of extract, reseal and audit"
}

# ---- messages that change while they are read

# The reader of the output waits while the message is changed by CHANGE, when the program has read a part of it: while_reading CHANGE COMMAND..
# The command reads the file `changing`.
while_reading() {
    local change=$1 status=0
    shift
    cp old_message changing
    rm -f slow
    mkfifo slow
    { "$@" <changing >slow 2>report || status=$?; echo "$status" >ended; } &
    exec 4<slow
    sleep 1
    "$change"
    cat <&4 >output
    exec 4<&-
    wait
}

cut_it() { truncate -s 500000 changing; }
grow_it() { echo more >>changing; }
replace_it() { cp old_framed another; mv another changing; }
write_over_it() { dd if=large of=changing bs=1000 seek=500 count=100 conv=notrunc 2>/dev/null; }
remove_it() { rm changing; }

changing_messages() {
    local change status
    local resealing=("$program" reseal --keyring old --to-keyring ring)
    local extracting=("$program" extract --keyring old --from changing --at 0 --count 1000000)
    for change in replace_it remove_it; do
        while_reading "$change" "${extracting[@]}"
        ended "extract of a message that is changed while it is read: $change" "$(cat ended)" 0 ''
        cmp -s output plain || fail "extract while $change" "the range isn't that of the message that was there"
    done
    while_reading grow_it "${extracting[@]}"
    ended "extract of a message that grows while it is read" "$(cat ended)" 0 ''
    cmp -s output plain || fail "extract of a message that grows" "the range isn't whole"
    while_reading cut_it "${extracting[@]}"
    ended "extract of a message that is cut while it is read" "$(cat ended)" 1 'esdk: M10 Truncated'
    front "extract of a message that is cut while it is read" output plain
    while_reading write_over_it "${extracting[@]}"
    ended "extract of a message that is written over while it is read" "$(cat ended)" 1 'esdk: M(18 WrongSequence|20 UnitTag) .*'
    front "extract of a message that is written over while it is read" output plain
    for change in replace_it remove_it; do
        while_reading "$change" "${resealing[@]}"
        ended "reseal of a file that is changed while it is read: $change" "$(cat ended)" 0 '\{\}'
        opens_as "reseal while $change" output plain
    done
    while_reading grow_it "${resealing[@]}"
    ended "reseal of a file that grows while it is read" "$(cat ended)" 1 'esdk: M22 TrailingBytes'
    cut_message "reseal of a file that grows while it is read" output plain
    while_reading cut_it "${resealing[@]}"
    ended "reseal of a file that is cut while it is read" "$(cat ended)" 1 'esdk: M10 Truncated'
    cut_message "reseal of a file that is cut while it is read" output plain
    while_reading write_over_it "${resealing[@]}"
    ended "reseal of a file that is written over while it is read" "$(cat ended)" 1 'esdk: M(18 WrongSequence|20 UnitTag) .*'
    cut_message "reseal of a file that is written over while it is read" output plain
    status=0
    { head -c 500000 old_message; sleep 1; tail -c +500001 old_message; } | "${resealing[@]}" >output 2>report || status=$?
    ended "reseal of a pipe whose writer is slow" "$status" 0 '\{\}'
    opens_as "reseal of a pipe whose writer is slow" output plain
    status=0
    { head -c 500000 old_message; sleep 1; } | "${resealing[@]}" >output 2>report || status=$?
    ended "reseal of a pipe whose writer dies" "$status" 1 'esdk: M10 Truncated'
    cut_message "reseal of a pipe whose writer dies" output plain
    status=0
    "${resealing[@]}" <folder >output 2>report || status=$?
    ended "reseal of a folder" "$status" 4 'esdk: X1 SourceFault'
    [ ! -s output ] || fail "reseal of a folder" "something was written"
}

# Input and output of `reseal` are one file. What the shell does to it by `>` is done before the program begins; by `<>` it overtakes what it reads.
# shellcheck disable=SC2094
one_file_of_reseal() {
    local status=0
    cp old_message one_file
    "$program" reseal --keyring old --to-keyring ring <one_file >one_file 2>report || status=$?
    ended "reseal into its own input" "$status" 1 'esdk: M10 Truncated'
    cp old_message one_file
    status=0
    "$program" reseal --keyring old --to-keyring ring <one_file 1<>one_file 2>report || status=$?
    ended "reseal over its own input in its place" "$status" "0 1" 'esdk: M.*|\{\}'
    if [ "$status" = 0 ]; then
        # What the old message is longer stands behind the new one.
        "$program" decrypt --keyring ring <one_file >opened 2>opening || grep -q '^esdk: M22 ' opening || fail "reseal over its own input in its place" "$(cat opening)"
        cmp -s opened plain || fail "reseal over its own input in its place" "the text isn't that of the message"
    fi
    cp old_message one_file
    status=0
    "$program" reseal --keyring old --to-keyring ring <one_file >>one_file 2>report || status=$?
    ended "reseal behind its own input" "$status" 1 'esdk: M22 TrailingBytes'
    head -c "$(stat -c %s old_message)" one_file | cmp -s - old_message || fail "reseal behind its own input" "the old message was changed"
    cp message one_file
    status=0
    timeout 20 "$program" extract --keyring ring --from one_file --at 0 --count 1000000 >>one_file 2>report || status=$?
    ended "extract behind its own message" "$status" 0 ''
    { cat message plain; } | cmp -s - one_file || fail "extract behind its own message" "it isn't the message and its text"
}

# An audit that names a message twice, whose name another file gets in between: it can't tell the readers of the two, and the name is refused.
replaced_between() {
    local begin status=0 pid
    strace -qq -o trace true 2>/dev/null || return 0
    cp framed changing
    audit_file auditing ring changing framed changing
    # The audit file and the keyring file are read twice each, and each message once: the sixth read is that of the second message.
    begin=$(of_loading pread64)
    strace -qq -o trace -e trace=pread64 -e "inject=pread64:delay_enter=2000000:when=$((begin + 6))" "$program" audit --jobs auditing >output 2>report &
    pid=$!
    sleep 1
    cp framed another
    mv another changing
    wait $pid || status=$?
    ended "an audit that names a message twice, which is replaced in between" "$status" 4 'esdk: X3 ShelfFault'
    [ ! -s output ] || fail "an audit that names a message twice" "something was written"
    status=0
    "$program" audit --jobs auditing >output 2>report || status=$?
    ended "an audit that names a message twice" "$status" 0 ''
    same_text "an audit that names a message twice" output 'message 1 opened-by 1' 'message 2 opened-by 1' 'message 3 opened-by 1' 'leaf 1 needed-for 1 2 3'
}

# A FIFO that takes the name of a message between the look at it and the opening: the run waits until somebody opens its other end, and it isn't read.
late_fifo() {
    local status=0 pid
    strace -qq -o trace true 2>/dev/null || return 0
    cp framed late
    mkfifo late_fifo
    strace -qq -o trace -P late -e trace=openat -e inject=openat:delay_enter=2000000 "$program" extract --keyring ring --from late --at 0 --count 4 >output 2>report &
    pid=$!
    sleep 1
    mv late_fifo late
    sleep 2
    kill -0 "$pid" || fail "a FIFO that takes a message's name" "the run doesn't wait"
    : >late
    wait "$pid" || status=$?
    sed -i '/^strace: /d' report
    ended "extract of a FIFO that takes a message's name" "$status" 4 'esdk: X3 ShelfFault'
    [ ! -s output ] || fail "extract of a FIFO that takes a message's name" "something was written"
    rm late
}

# ---- a kill at each write

# Reseals in frames of a length by a program that is killed: killed_reseal PROGRAM.. --frame LENGTH
killed_reseal() { (exec "${@:1:$# - 2}" reseal --keyring old --to-keyring ring "${@: -2}" >output 2>report); }

killed_reseals() {
    local k=0 begin status=137
    strace -qq -o trace true 2>/dev/null || { echo "a reseal that is killed: not tried, since strace can't be had"; return 0; }
    : >answers
    begin=$(of_loading write)
    while [ "$status" = 137 ] && [ "$k" -lt 60 ]; do
        k=$((k + 1))
        status=0
        killed_reseal strace -qq -o trace -e trace=write -e "inject=write:signal=KILL:when=$((begin + k))" "$program" --frame 2 <old_framed 2>/dev/null || status=$?
        echo "status $status" >>answers
        resealed_nine "a reseal that is killed, write $k" output "$status"
    done
    [ "$k" -gt 3 ] || fail "a reseal that is killed" "it ended by itself at write $k"
    show_places "a reseal that is killed at each of its writes"
    : >answers
    for k in 0.005 0.01 0.02 0.03 0.05 0.08; do
        status=0
        killed_reseal timeout -s KILL "$k" "$program" --frame 64 <old_large 2>/dev/null || status=$?
        echo "status $status" >>answers
        if [ "$status" = 0 ]; then opens_as "a reseal that is killed after $k seconds" output large; elif [ -s output ]; then
            cut_message "a reseal that is killed after $k seconds" output large; fi
    done
    show_places "a reseal of 30 MB that is killed while it runs"
}

# ---- one failing call at each place

# A read of a file gives nothing, as if it had been cut before: call 1, 2, .. in turn. cut_before_each WHAT "STATUSES" PATTERN CHECK INPUT WORDS..
cut_before_each() {
    local what=$1 statuses=$2 pattern=$3 check=$4 input=$5 k begin status
    shift 5
    : >answers
    begin=$(of_loading pread64)
    for k in $(seq 1 60); do
        status=0
        strace -qq -o trace -e trace=pread64 -e "inject=pread64:retval=0:when=$((begin + k))" "$program" "$@" <"$input" >output 2>report || status=$?
        was_injected || break
        judge_place "$what, read $k" "$status" "$statuses" "$pattern" "$check"
    done
    show_places "$what"
}

failing_calls_of_commands() {
    local resealing=(reseal --keyring old --to-keyring ring --frame 2)
    local extracting=(extract --keyring ring --from framed --at 2 --count 4)
    local begin status=0
    strace -qq -o trace true 2>/dev/null || return 0
    each_place "reseal, a read of the input fails" read EIO 4 'esdk: X1 SourceFault' cut_of_nine old_framed "${resealing[@]}"
    each_place "reseal, a write fails" write ENOSPC 4 'esdk: X2 SinkFault|' resealed_nine old_framed "${resealing[@]}"
    each_place "reseal, a file isn't opened" openat,open EMFILE 4 'esdk: X3 ShelfFault|esdk: X4 EntropyFault' nothing old_framed "${resealing[@]}"
    each_place "reseal, a file isn't looked at" statx EIO "0 4" 'esdk: X3 ShelfFault|\{"a":"b"\}' resealed_nine old_framed "${resealing[@]}"
    each_place "reseal, a read of a file fails" pread64 EIO 4 'esdk: X3 ShelfFault' nothing old_framed "${resealing[@]}"
    each_place "reseal, the system gives no entropy" getrandom ENOSYS "0 4" 'esdk: X4 EntropyFault|\{"a":"b"\}' resealed_nine old_framed "${resealing[@]}"
    each_place "reseal, a read of the input is interrupted" read EINTR 0 '\{"a":"b"\}' resealed_nine old_framed "${resealing[@]}"
    each_place "reseal, a write is interrupted" write EINTR "0 4" 'esdk: X2 SinkFault|\{"a":"b"\}|' resealed_nine old_framed "${resealing[@]}"
    begin=$(of_loading read)
    inject read EINTR "$((begin + 1))+" "${resealing[@]}" <old_framed >output 2>report || status=$?
    ended "reseal, each read of the input is interrupted" "$status" 4 'esdk: X1 SourceFault'
    cut_of_nine "reseal, each read of the input is interrupted" output
    status=0
    begin=$(of_loading pread64)
    inject pread64 EINTR "$((begin + 1))+" "${extracting[@]}" >output 2>report || status=$?
    ended "extract, each read of a file is interrupted" "$status" 4 'esdk: X3 ShelfFault'
    each_place "extract, a write fails" write ENOSPC 4 'esdk: X2 SinkFault|' range_or_front nine "${extracting[@]}"
    each_place "extract, a file isn't opened" openat,open EMFILE "0 4" 'esdk: X3 ShelfFault|' range_or_front nine "${extracting[@]}"
    each_place "extract, a file isn't looked at" statx EIO "0 4" 'esdk: X3 ShelfFault|' range_or_front nine "${extracting[@]}"
    each_place "extract, a read of a file fails" pread64 EIO 4 'esdk: X3 ShelfFault' range_or_front nine "${extracting[@]}"
    each_place "extract, a read of a file is interrupted" pread64 EINTR 0 '' range_or_front nine "${extracting[@]}"
    each_place "audit, a write fails" write ENOSPC 4 'esdk: X2 SinkFault|' front_of_lines nine audit --jobs audited
    each_place "audit, a file isn't opened" openat,open EMFILE "0 4" 'esdk: X[35] (Shelf|Keyring)Fault|' lines_or_nothing nine audit --jobs audited
    each_place "audit, a file isn't looked at" statx EIO "0 4" 'esdk: X[35] (Shelf|Keyring)Fault|' lines_or_nothing nine audit --jobs audited
    each_place "audit, a read of a file fails" pread64 EIO 4 'esdk: X[35] (Shelf|Keyring)Fault' lines_or_nothing nine audit --jobs audited
    each_place "audit, a read of a file is interrupted" pread64 EINTR 0 '' lines_or_nothing nine audit --jobs audited
    cut_before_each "extract, a file is cut before a read" "0 1 3" 'esdk: (M10 Truncated|K2 BadShape 1)|' range_or_front nine "${extracting[@]}"
    cut_before_each "audit, a file is cut before a read" "0 3 4 7" 'esdk: (K1 NotJson|K2 BadShape [01]|X5 KeyringFault)|' lines_of_cut_files nine audit --jobs audited
}

# Of an audit whose message was cut: that message alone is M10, and status 7.
lines_of_cut_files() {
    case $3 in
        7) [ "$(grep -c '^message [12] M10 Truncated$' "$2")$(wc -l <"$2")" = 15 ] || fail "$1" "$(cat "$2")" ;;
        *) lines_or_nothing "$@" ;;
    esac
}

refused_memory_of_commands() {
    [ -e refused.so ] || return 0
    each_refusal "reseal, memory is refused" "0 4 5" cut_or_all_of_nine old_framed reseal --keyring old --to-keyring ring --frame 2
    each_refusal "extract, memory is refused" "0 4 5" range_or_front nine extract --keyring ring --from framed --at 2 --count 4
    each_refusal "audit, memory is refused" "0 4 5" lines_or_nothing nine audit --jobs audited
}

# ---- hostile messages

# The same bytes over and over: repeated TEXT COUNT
repeated() {
    local length
    # shellcheck disable=SC2059
    printf "$1" >repeating
    length=$(stat -c %s repeating)
    while [ "$(stat -c %s repeating)" -lt $((length * $2)) ]; do
        cat repeating repeating >repeating_more
        mv repeating_more repeating
    done
    head -c $((length * $2)) repeating
}

# A header of 65,535 data keys that bear a key's name, and that none opens; each has so many bytes of ciphertext. Where there is a third word, the context
# has 65,535 bytes, which each of the keys has to authenticate: hostile_header NAMESPACE LENGTH [wide]
hostile_header() {
    local entry
    entry="\\0$(printf '%03o' ${#1} | sed 's/^/\\/')$1\\0\\030name\\0\\0\\0\\200\\0\\0\\0\\014abcdefghijkl\\0\\$(printf '%03o' "$2")$(head -c "$2" /dev/zero | tr '\0' x)"
    printf '\2\4\170'
    head -c 32 /dev/zero
    if [ -n "${3-}" ]; then
        printf '\377\377\0\1\0\1a\377\370'
        head -c 65528 /dev/zero | tr '\0' v
    else
        printf '\0\0'
    fi
    printf '\377\377'
    repeated "$entry" 65535
    printf '\2\0\0\20\0'
    head -c 48 /dev/zero
}

# Runs with little room and time: in_room WHAT "STATUSES" PATTERN INPUT WORDS..
in_room() {
    local what=$1 statuses=$2 pattern=$3 input=$4 status=0
    shift 4
    (ulimit -v "$room"; ulimit -n "$open_files"; exec timeout "$seconds" "$program" "$@" <"$input" >output 2>report) || status=$?
    ended "$what" "$status" "$statuses" "$pattern"
}

hostile_messages() {
    local i files=() most=4611686018427387904
    hostile_header ns 48 >tried_header
    hostile_header ns 224 >long_header
    hostile_header ns 48 wide >wide_header
    [ "$(stat -c %s long_header)" = $((39 + 65535 * 256 + 53)) ] || fail "a header of 16 MiB" "it has another length"
    in_room "extract of a header of 65,535 data keys of the key's name" 1 'esdk: M15 NoKeyOpens' nine extract --keyring ring --from tried_header --at 0 --count 1
    in_room "extract of such a header whose context has 65,535 bytes" 1 'esdk: M15 NoKeyOpens' nine extract --keyring ring --from wide_header --at 0 --count 1
    in_room "reseal of such a header whose context has 65,535 bytes" 1 'esdk: M15 NoKeyOpens' wide_header reseal --keyring ring --to-keyring old
    in_room "extract of a header of 16 MiB" 1 'esdk: M15 NoKeyOpens' nine extract --keyring ring --from long_header --at 0 --count 1
    in_room "reseal of a header of 65,535 data keys of the key's name" 1 'esdk: M15 NoKeyOpens' tried_header reseal --keyring ring --to-keyring old
    in_room "reseal of a header of 16 MiB" 1 'esdk: M15 NoKeyOpens' long_header reseal --keyring ring --to-keyring old
    [ ! -s output ] || fail "reseal of a header of 16 MiB" "something was written"
    audit_file auditing three long_header tried_header framed long_header long_header long_header long_header long_header
    in_room "an audit of six headers of 16 MiB" 7 '' nine audit --jobs auditing
    same_text "an audit of six headers of 16 MiB" output 'message 1 opened-by none' 'message 2 opened-by none' 'message 3 opened-by 1' \
        'message 4 opened-by none' 'message 5 opened-by none' 'message 6 opened-by none' 'message 7 opened-by none' 'message 8 opened-by none' \
        'leaf 1 needed-for 3' 'leaf 2 needed-for none' 'leaf 3 needed-for none'
    head -c 16000000 long_header >cut_header
    in_room "extract of a header of 16 MiB that is cut" 1 'esdk: M10 Truncated' nine extract --keyring ring --from cut_header --at 0 --count 1
    { head -c 39 long_header; head -c 20000000 /dev/urandom | tr '\0' x; } >endless_header
    in_room "extract of a header that goes on beyond 16 MiB" 1 'esdk: M8 HeaderTooLong .*' nine extract --keyring ring --from endless_header --at 0 --count 1
    announced_frames
    for i in "0 $most" "9 $most" "$most $most" "$most 0" "$((most - 1)) 1" "17179869179 5"; do
        in_room "extract of a range near the greatest numbers, $i" "0 1" 'esdk: M10 Truncated|' nine extract --keyring ring --from framed --at "${i% *}" --count "${i#* }"
        case $i in 0*) cmp -s output nine ;; *) [ ! -s output ] ;; esac || fail "extract of the range $i" "something else was written"
    done
    in_room "extract of a range beyond the greatest number" 2 'esdk: words BadNumber --at' nine extract --keyring ring --from framed --at 4611686018427387905 --count 1
    in_room "extract of more than the greatest number" 2 'esdk: words BadNumber --count' nine extract --keyring ring --from framed --at 0 --count 4611686018427387905
    mkdir thousand
    for i in $(seq 1000); do
        cp framed "thousand/$i"
        files+=("thousand/$i")
    done
    audit_file auditing three "${files[@]}"
    in_room "an audit of 1,000 messages, with $open_files open files at the most" 0 '' nine audit --jobs auditing
    [ "$(grep -c '^message [0-9]* opened-by 1$' output)" = 1000 ] || fail "an audit of 1,000 messages" "not each is opened by leaf 1"
    { echo -n 'leaf 1 needed-for'; seq -s ' ' -f ' %.0f' 1000 | tr -s ' '; } | cmp -s - <(grep '^leaf 1' output) || fail "an audit of 1,000 messages" "leaf 1 isn't needed for all of them"
    audit_file auditing three "${files[@]}" framed
    in_room "an audit of 1,001 messages" 3 'esdk: K2 BadShape 0' nine audit --jobs auditing
    rm -rf thousand ./*_header
}

# Frames of 2^32 - 1 bytes are announced, and the file is small. Where a frame's mark is made that of a regular frame, its bytes are missing.
announced_frames() {
    local begin
    if ! "$program" encrypt --keyring ring --frame 4294967295 <nine >announced 2>report; then
        echo "frames of 4,294,967,295 bytes that are announced: not tried, since memory for one can't be had"
        return
    fi
    begin=$(($(stat -c %s announced) - 49))
    { head -c "$begin" announced; tail -c +$((begin + 5)) announced; } >unfinished
    in_room "extract of a message whose frames are announced with 4,294,967,295 bytes" 0 '' nine extract --keyring ring --from announced --at 2 --count 4
    cmp -s output middle || fail "extract of frames of 4,294,967,295 bytes" "the range isn't right"
    in_room "extract of a frame of 4,294,967,295 bytes that aren't there" 1 'esdk: M10 Truncated' nine extract --keyring ring --from unfinished --at 0 --count 4
    [ ! -s output ] || fail "extract of a frame that isn't there" "something was written"
    in_room "reseal of a frame of 4,294,967,295 bytes that aren't there" "1 5" 'esdk: (Memory|M10 Truncated)' unfinished reseal --keyring ring --to-keyring ring
    cut_of_nine "reseal of a frame of 4,294,967,295 bytes" output
    in_room "reseal of the same with a limit" 1 'esdk: M9 UnitTooLong 4294967295' unfinished reseal --keyring ring --to-keyring ring --max-unit 65536
    in_room "reseal into frames of 4,294,967,295 bytes" "0 5" 'esdk: Memory|\{"a":"b"\}' old_framed reseal --keyring old --to-keyring ring --frame 4294967295
    cut_or_all_of_nine "reseal into frames of 4,294,967,295 bytes" output
    audit_file auditing ring announced unfinished
    in_room "an audit of messages whose frames are announced so long" 0 '' nine audit --jobs auditing
    same_text "an audit of messages whose frames are announced so long" output 'message 1 opened-by 1' 'message 2 opened-by 1' 'leaf 1 needed-for 1 2'
}

# ---- all

commands() {
    make_commands
    closed_streams_of_commands
    full_outputs_of_commands
    files_of_commands
    changing_messages
    replaced_between
    late_fifo
    one_file_of_reseal
    "$program" encrypt --keyring old <large >old_large
    killed_reseals
    failing_calls_of_commands
    refused_memory_of_commands
    hostile_messages
}
