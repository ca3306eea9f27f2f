# shellcheck shell=bash disable=SC2154
# One failing call at each place, and memory that is refused. Part of tests/outside, which reads it.

# ---- memory

# With ever more room for the program's addresses: each run ends as usual or for want of memory, and what was written is a front.
little_memory() {
    local room status counts
    : >statuses
    for room in $(seq 256 64 8192); do
        status=0
        { (ulimit -v "$room"; exec "$program" decrypt --keyring ring <framed >output 2>report) || status=$?; } 2>/dev/null
        echo "$status" >>statuses
        [ "$status" = 0 ] || [ "$status" = 5 ] || [ "$status" -ge 126 ] || { wrong=$((wrong + 1)); echo "decrypt in $room KiB: WRONG: status $status, $(cat report)"; }
        front "decrypt in $room KiB" output nine
    done
    counts=$(sort -n statuses | uniq -c | awk '{ printf "%s%d times status %s", (NR > 1 ? ", " : ""), $1, $2 }')
    tried=$((tried + 1))
    echo "decrypt in 256 to 8,192 KiB of addresses: $counts (126 and more: the system could not start it)"
    status=0
    (ulimit -v 100000; exec "$program" encrypt --keyring ring --frame 4294967295 <nine) >output 2>report || status=$?
    ended "encrypt in frames of 4,294,967,295 bytes in 100 MB of addresses" "$status" 5 'esdk: Memory'
    [ ! -s output ] || { wrong=$((wrong + 1)); echo "frames of 4,294,967,295 bytes: WRONG: something was written"; }
}

# Strangers' headers in a batch: it holds those of the jobs side by side, and of a cache's entries, and not those of all its jobs. Of the first kind no
# key opens one; of the second, of which each is another, the first data key is a genuine one, and the header's tag is wrong.
strangers_headers() {
    local i long=() padded=()
    hostile_header ns 224 >long_header
    repeated '\0\0\0\0\0\0' 65533 >padding
    for ((i = 1; i <= 40; i++)); do
        { head -c 37 message; printf '\377\377'; head -c 119 message | tail -c 80; printf '\0\0\0\4%04d\0\0' "$i"; cat padding; tail -c +120 message; } >padded$i
        long+=("decrypt long_header stranger$i")
        padded+=("decrypt padded$i stranger$i")
    done
    job_file strangers ring 4 "${long[@]}"
    room=300000 seconds=60 in_room "a batch of 40 headers of 16 MiB, four at a time" 7 '' nine batch --jobs strangers
    [ "$(grep -c '^job [0-9]* decrypt M15 NoKeyOpens none$' output)" = 40 ] || fail "a batch of 40 headers of 16 MiB" "$(head -n 2 output)"
    job_file strangers ring 4 "${padded[@]}"
    sed -i 's/"width":4,/"width":4,"cache":{"capacity":2,"age":60,"messages":2,"bytes":1000},/' strangers
    in_room "a batch of 40 headers of 393 KB, with a cache of two entries" 7 '' nine batch --jobs strangers
    [ "$(grep -c '^job [0-9]* decrypt M17 HeaderTag ' output)" = 40 ] || fail "a batch of 40 headers of 393 KB" "$(head -n 2 output)"
    in_room "list of a header of 16 MiB" 0 '' long_header list
    rm -f stranger* long_header padd*
}

# ---- one failing call at each place

# Lets call 1, 2, .. of these fail until a run meets no failure, and says how often each answer came: each_place WHAT CALLS ERROR "STATUSES" PATTERN CHECK INPUT WORDS..
each_place() {
    local what=$1 calls=$2 error=$3 statuses=$4 pattern=$5 check=$6 input=$7 k begin status
    shift 7
    : >answers
    begin=$(of_loading "$calls")
    for k in $(seq 1 60); do
        status=0
        inject "$calls" "$error" $((begin + k)) "$@" <"$input" >output 2>report || status=$?
        was_injected || break
        judge_place "$what, call $k" "$status" "$statuses" "$pattern" "$check"
    done
    show_places "$what"
}

# Lets request 1, 2, .. for memory be refused until a run asks no more: each_refusal WHAT "STATUSES" CHECK INPUT WORDS..
each_refusal() {
    local what=$1 statuses=$2 check=$3 input=$4 k=0 all=1 status
    shift 4
    : >answers
    while [ "$k" -lt "$all" ]; do
        k=$((k + 1))
        status=0
        REFUSED=$k COUNTED=counted LD_PRELOAD=./refused.so "$program" "$@" <"$input" >output 2>report || status=$?
        [ "$k" -gt 1 ] || all=$(all_requests "$input" "$@")
        judge_place "$what, request $k" "$status" "$statuses" 'esdk: Memory|esdk: X3 ShelfFault|esdk: X5 KeyringFault|\{.*\}|' "$check"
    done
    show_places "$what"
}

# How many requests for memory a run makes that is refused none.
all_requests() {
    local input=$1
    shift
    COUNTED=counted LD_PRELOAD=./refused.so "$program" "$@" <"$input" >usual 2>&1
    cat counted
}

# Counts it as wrong where the status or the line isn't one of those wanted, and lets CHECK look at what was written.
judge_place() {
    local what=$1 status=$2 statuses=$3 pattern=$4 check=$5 line
    line=$(cat report)
    echo "status $status${line:+, $line}" >>answers
    if [[ " $statuses " != *" $status "* ]] || ! [[ $line =~ ^($pattern)$ ]]; then
        wrong=$((wrong + 1))
        echo "$what: WRONG: status $status, $line"
    fi
    "$check" "$what" output "$status"
}

# Says how often each answer came.
show_places() {
    local what=$1
    tried=$((tried + 1))
    echo "$what: $(sort answers | uniq -c | awk '{ n = $1; $1 = ""; printf "%s%d times%s", (NR > 1 ? "; " : ""), n, $0 }')"
}

# What may have been written: CHECK WHAT OUTPUT STATUS
front_of_nine() { front "$1" "$2" nine; }
cut_of_nine() { [ ! -s "$2" ] || cut_message "$1" "$2" nine; }

# At status 0 the whole result, else nothing.
all_or_nothing() {
    local what=$1 output=$2 status=$3 due=$4
    if [ "$status" = 0 ]; then
        cmp -s "$output" "$due" && return
    elif [ ! -s "$output" ]; then
        return
    fi
    wrong=$((wrong + 1))
    echo "$what: WRONG: something else was written"
}

nine_or_nothing() { all_or_nothing "$1" "$2" "$3" nine; }
listing_or_nothing() { all_or_nothing "$1" "$2" "$3" listing; }
nothing() { all_or_nothing "$1" "$2" "$3" /dev/null; }

# Where memory is refused behind the last unit, in the line of the context, the plaintext was written whole.
all_of_nine_or_nothing() {
    if [ "$3" = 0 ] || [ -s "$2" ]; then
        nine_or_nothing "$1" "$2" 0
    fi
}

# What a batch of two jobs may have written, whose report is this: a job that is done wrote all, any other a front; and the report has a line for each, or is a front.
jobs_of_nine() {
    local what=$1 report=$2 status=$3
    [ "$status" != 0 ] || same_text "$what" "$report" 'job 1 encrypt done direct' 'job 2 decrypt done direct'
    if [ "$status" = 7 ] && [ "$(grep -cE '^job (1 encrypt|2 decrypt) (done|X3 ShelfFault|X4 EntropyFault) (direct|none)$' "$report")" != 2 ]; then
        wrong=$((wrong + 1))
        echo "$what: WRONG: the report is $(cat "$report")"
    fi
    if grep -q '^job 1 encrypt done' "$report"; then opens_as "$what" sealed nine; fi
    if grep -q '^job 2 decrypt done' "$report"; then nine_or_nothing "$what" opened_nine 0; fi
    [ ! -s sealed ] || "$program" decrypt --keyring ring <sealed >/dev/null 2>&1 || cut_message "$what" sealed nine
    [ ! -e opened_nine ] || front "$what" opened_nine nine
    no_parts "$what"
    rm -f sealed opened_nine
}

# The same of a batch of three jobs that share a cache.
cached_jobs_of_nine() {
    local what=$1 report=$2 status=$3 number=0 sealed
    [ "$status" != 0 ] || same_text "$what" "$report" 'job 1 encrypt done new 1' 'job 2 encrypt done hit 1' 'job 3 encrypt done new 2'
    for sealed in sealed sealed_2 sealed_3; do
        number=$((number + 1))
        if grep -q "^job $number encrypt done" "$report"; then opens_as "$what" $sealed nine; fi
        [ ! -s $sealed ] || "$program" decrypt --keyring ring <$sealed >/dev/null 2>&1 || cut_message "$what" $sealed nine
        rm -f $sealed
    done
}

# A message is another each time, so it is opened.
message_or_nothing() {
    local opened=$2
    [ "$3" != 0 ] || { "$program" decrypt --keyring ring <"$2" >opened 2>opening && opened=opened; }
    nine_or_nothing "$1" "$opened" "$3"
}

failing_calls() {
    if ! strace -qq -o trace true 2>/dev/null; then
        echo "one failing call at each place: not tried, since strace can't be had"
        return
    fi
    each_place "encrypt, a read of the input fails" read EIO 4 'esdk: X1 SourceFault' cut_of_nine nine encrypt --keyring ring --frame 4
    each_place "encrypt, a write fails" write ENOSPC 4 'esdk: X2 SinkFault|' cut_of_nine nine encrypt --keyring ring --frame 4
    each_place "encrypt, a file isn't opened" openat,open EMFILE 4 'esdk: X3 ShelfFault|esdk: X4 EntropyFault' nothing nine encrypt --keyring ring
    each_place "encrypt, a read of a file fails" pread64 EIO 4 'esdk: X3 ShelfFault' nothing nine encrypt --keyring ring
    # The C library asks for entropy too, once, and does without.
    each_place "encrypt, the system gives no entropy" getrandom ENOSYS "0 4" 'esdk: X4 EntropyFault|' message_or_nothing nine encrypt --keyring ring
    each_place "decrypt, a read of the input fails" read EIO 4 'esdk: X1 SourceFault' front_of_nine framed decrypt --keyring ring
    each_place "decrypt, a write fails" write ENOSPC 4 'esdk: X2 SinkFault|' front_of_nine framed decrypt --keyring ring
    each_place "batch, a file isn't opened" openat,open EMFILE "4 7" 'esdk: X3 ShelfFault|' jobs_of_nine /dev/null batch --jobs two_jobs
    each_place "batch, a read of a file fails" pread64 EIO "4 7" 'esdk: X3 ShelfFault|' jobs_of_nine /dev/null batch --jobs two_jobs
    each_place "batch, a write fails" write ENOSPC "4 7" 'esdk: X2 SinkFault|' jobs_of_nine /dev/null batch --jobs two_jobs
    each_place "batch, the system gives no entropy" getrandom ENOSYS "0 7" '' jobs_of_nine /dev/null batch --jobs two_jobs
    each_place "encrypt under three keys, a file isn't opened" openat,open EMFILE 4 'esdk: X3 ShelfFault|esdk: X4 EntropyFault|esdk: X5 KeyringFault' nothing \
        nine encrypt --keyring three
    each_place "list, a read of the input fails" read EIO 4 'esdk: X1 SourceFault' nothing framed list
    each_place "list, a write fails" write ENOSPC 4 'esdk: X2 SinkFault|' nothing framed list
    each_place "gen, a write fails" write ENOSPC 4 'esdk: X2 SinkFault|' nothing /dev/null gen --seed 1 --size 100
}

refused_memory() {
    if ! cc -shared -fPIC -O1 -o refused.so "$top/tests/refused_memory.c" -ldl 2>/dev/null; then
        echo "refused memory: not tried, since there is no C compiler"
        return
    fi
    each_refusal "list, memory is refused" "0 5" listing_or_nothing framed list
    each_refusal "encrypt, memory is refused" "0 4 5" message_or_nothing nine encrypt --keyring ring --frame 4 a=b
    each_refusal "decrypt, memory is refused" "0 4 5" all_of_nine_or_nothing framed decrypt --keyring ring
    each_refusal "encrypt under three keys, memory is refused" "0 4 5" message_or_nothing nine encrypt --keyring three --frame 4 a=b
    each_refusal "batch, memory is refused" "0 4 5 7" jobs_of_nine /dev/null batch --jobs two_jobs
    each_refusal "batch with a cache, memory is refused" "0 4 5 7" cached_jobs_of_nine /dev/null batch --jobs cached
}
