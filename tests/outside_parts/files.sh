# shellcheck shell=bash disable=SC2154
# Files of a batch that are one file, are no files, or change while it runs; and their rights. Part of tests/outside, which reads it.

# Runs a batch in the folder, and says what came to the job of this number: batch_in FOLDER NUMBER
# Counts it as wrong where the status isn't 0 or 7, or the run doesn't end.
batch_in() {
    local status=0
    (cd "$1" && timeout 20 "$program" batch --jobs jobs >../output 2>../report) || status=$?
    [ "$status" = 0 ] || [ "$status" = 7 ] || fail "a batch in $1" "status $status, $(cat report)"
    echo "status $status, $(sed -n "s/^job $2 //p" output)" >>answers
}

# Makes a folder anew with the files of a batch: a keyring file with a plug, its key, two plaintexts and a folder.
make_folder() {
    rm -rf "$1"
    mkdir -p "$1/sub"
    cp three "$1/ring"
    cp esdk.key nine "$1"
    echo another >"$1/other"
}

# Makes the other names of a file, and says all of them: other_names FOLDER FILE
other_names() {
    ln "$1/$2" "$1/hard_$2"
    ln -s "$2" "$1/soft_$2"
    ln -s "$(readlink -f "$1")/$2" "$1/far_$2"
    echo "./$2" ".//$2" "sub/../$2" "$(readlink -f "$1")/$2" "hard_$2" "soft_$2" "far_$2"
}

# The checksums of these files of a folder.
sums() { (cd "$1" && cat ring esdk.key nine other jobs | cksum); }

# Counts it as wrong where the last answer isn't this one: answered WHAT "PATTERN"
answered() { [[ $(tail -n 1 answers) =~ ^($2)$ ]] || fail "$1" "$(tail -n 1 answers)"; }

# A job whose `to` is a name of a file that is read, and isn't the name by which it is read. That job is refused, and all files are as before.
names_of_one_file() {
    local file name before
    : >answers
    for file in nine other ring jobs esdk.key; do
        make_folder one
        : >one/jobs
        for name in $(other_names one "$file") $([ "$file" != esdk.key ] || echo esdk.key); do
            job_file one/jobs ring 4 "encrypt nine first" "encrypt nine $name" "encrypt other third"
            before=$(sums one)
            batch_in one 2
            answered "writing $file as $name" 'status 7, encrypt X3 ShelfFault (direct|none)'
            [ "$(sums one)" = "$before" ] || fail "writing $file as $name" "a file changed"
            opens_as "writing $file as $name" one/first nine
            opens_as "writing $file as $name" one/third one/other
            no_parts "writing $file as $name" one
            rm -f one/first one/third
        done
    done
    show_places "a job that writes a file that is read, by another of its names"
}

# The same, where that job ends before another one reads the file: so the file is known before it is read.
names_of_a_later_source() {
    local name
    : >answers
    make_folder one
    for name in $(other_names one other); do
        job_file one/jobs ring 1 "encrypt nine $name" "encrypt other third"
        batch_in one 1
        answered "writing other as $name before it is read" 'status 7, encrypt X3 ShelfFault (direct|none)'
        [ "$(cat one/other)" = another ] || fail "writing other as $name before it is read" "it changed"
        opens_as "writing other as $name before it is read" one/third one/other
        no_parts "writing other as $name before it is read" one
        rm -f one/third
    done
    show_places "a job that writes a file that a later job reads, by another of its names"
}

# A source of which a read of one job gives nothing, as at its end, though it goes on for another: what came before is the text of that job, it reads nothing behind, and no job reads a place twice.
source_that_ends_early() {
    local status=0 often
    strace -qq -o trace true 2>/dev/null || return 0
    head -c 300000 plain >source
    head -c 131072 plain >front
    job_file early ring 2 "encrypt source early.esdk" "encrypt source whole.esdk"
    # The two jobs read in turns: the fifth read is the first job's third.
    strace -qq -o trace -P "$work/source" -e trace=pread64 -e inject=pread64:retval=0:when=5 "$program" batch --jobs early </dev/null >output 2>report || status=$?
    # strace says of the path what it is.
    sed -i '/^strace: /d' report
    ended "a batch of two jobs, for one of which their source ends early" "$status" 0 ''
    same_text "a source that ends early" output 'job 1 encrypt done direct' 'job 2 encrypt done direct'
    opens_as "a source that ends early" early.esdk front
    opens_as "a source that ends early for another job" whole.esdk source
    often=$(sed -n 's/^pread64(.*, \([0-9]*\)) *= .*/\1/p' trace | sort | uniq -c | awk '$1 > 2 { print $2 }')
    [ -z "$often" ] || fail "a source that ends early" "a job read it twice at $often"
}

# Two jobs that write one file by two names: the first is done, the second refused.
two_names_of_an_output() {
    local name
    : >answers
    make_folder one
    for name in ./out .//out sub/../out "$(readlink -f one)/out" soft_out; do
        [ "$name" != soft_out ] || { echo before >one/out; ln -s out one/soft_out; }
        job_file one/jobs ring 4 "encrypt nine out" "encrypt other $name"
        batch_in one 2
        answered "writing out and $name" 'status 7, encrypt X3 ShelfFault direct'
        opens_as "writing out and $name" one/out nine
        no_parts "writing out and $name" one
        rm -f one/out
    done
    show_places "two jobs that write one file by two names"
}

# A link is followed to what isn't read, and stays a link; one that leads to nothing is refused.
links_as_outputs() {
    : >answers
    make_folder one
    echo before >one/sub/out
    ln -s sub/out one/link
    ln -s sub/nothing one/loose
    job_file one/jobs ring 4 "encrypt nine link" "encrypt other loose"
    batch_in one 1
    answered "writing by a link" 'status 7, encrypt done direct'
    [ -L one/link ] || fail "writing by a link" "the link is gone"
    opens_as "writing by a link" one/sub/out nine
    [ ! -e one/sub/nothing ] || fail "writing by a link to nothing" "a file was made"
    no_parts "writing by a link" one
    no_parts "writing by a link" one/sub
    show_places "a job that writes by a link to another folder"
}

# Named pipes, devices and folders in place of each file: refused at once, and left alone.
no_regular_files() {
    local name status
    make_folder one
    mkfifo one/pipe
    ln -s pipe one/soft_pipe
    : >answers
    for name in pipe soft_pipe sub /dev/null /dev/zero; do
        job_file one/jobs ring 4 "encrypt $name first" "encrypt nine second"
        batch_in one 1
        answered "reading $name" 'status 7, encrypt X3 ShelfFault (direct|none)'
        opens_as "beside reading $name" one/second nine
        job_file one/jobs ring 4 "encrypt nine $name" "encrypt nine second"
        batch_in one 1
        answered "writing $name" 'status 7, encrypt X3 ShelfFault (direct|none)'
        if [ ! -p one/pipe ] || [ ! -L one/soft_pipe ] || [ ! -d one/sub ] || [ ! -c /dev/null ]; then fail "writing $name" "it is gone"; fi
        job_file one/jobs "$name" 4 "encrypt nine second"
        refused_file one "a batch with $name as keyring file" jobs
        refused_file one "a batch with $name as job file" "$name"
        no_parts "$name" one
    done
    show_places "a job with a named pipe, a device or a folder as source or output"
}

# A batch that can't read one of its own files: refused_file FOLDER WHAT JOBS
refused_file() {
    local status=0
    (cd "$1" && timeout 20 "$program" batch --jobs "$3" >../output 2>../report) || status=$?
    ended "$2" "$status" 4 'esdk: X3 ShelfFault'
}

# Who may read what was written: has_rights WHAT FILE MODE
has_rights() {
    local mode
    mode=$(stat -c %a "$2")
    echo "mode $mode" >>answers
    [ "$mode" = "$3" ] || fail "$1" "$2 has mode $mode, and not $3"
}

# A text that replaces a file has the rights of its group only where all others have them, too; a message has them all.
rights() {
    local mask mode due
    make_folder one
    cp framed one/message
    job_file one/jobs ring 4 "encrypt nine sealed" "decrypt message opened"
    : >answers
    for mask in 000 022 027 077; do
        (umask "$mask" && cd one && "$program" batch --jobs jobs >../output 2>../report) || fail "umask $mask" "$(cat output report)"
        has_rights "umask $mask" one/sealed "$(printf '%o' $((0666 & ~0$mask)))"
        has_rights "umask $mask" one/opened 600
        rm -f one/sealed one/opened
    done
    while read -r mode due; do
        echo before | tee one/sealed >one/opened
        chmod "$mode" one/sealed one/opened
        (cd one && "$program" batch --jobs jobs >../output 2>../report) || fail "over a file of mode $mode" "$(cat output report)"
        has_rights "over a file of mode $mode" one/sealed "$mode"
        has_rights "over a file of mode $mode" one/opened "$due"
    done <<'MODES'
600 600
640 600
604 600
664 644
666 666
755 755
MODES
    no_parts rights one
    show_places "the rights of files that a batch writes"
    : >answers
    chmod 444 one/sealed
    echo before >one/opened
    batch_in one 1
    answered "over a file that nobody may write" 'status 7, encrypt X3 ShelfFault (direct|none)'
    show_places "over a file that nobody may write"
}

# Writes an ACL: set_acl FILE access|default "TAG:RIGHTS[:ID]".. The tags are those of the system: 1 the owner, 2 a user, 4 the group, 16 the mask, 32 all others.
set_acl() {
    python3 -c 'import os, struct, sys
entries = [tuple(map(int, (entry + ":4294967295").split(":")[:3])) for entry in sys.argv[3:]]
os.setxattr(sys.argv[1], "system.posix_acl_" + sys.argv[2], struct.pack("<I", 2) + b"".join(struct.pack("<HHI", *entry) for entry in entries))' "$@" 2>/dev/null
}

# A text that replaces a file with an ACL is its owner's alone: of 660 with the entries of a user and of a group without rights, and of 640 in a folder whose ACL gives
# a user rights to new files.
rights_of_acls() {
    make_folder one
    cp framed one/message
    mkdir one/shared
    echo before | tee one/bobs one/shared/private >/dev/null
    chmod 640 one/shared/private
    if ! set_acl one/bobs access 1:6 2:6:1001 4:0 16:6 32:0 || ! set_acl one/shared default 1:7 2:7:1001 4:5 16:7 32:0; then
        echo "files with an ACL: not tried, since there are none here"
        return
    fi
    : >answers
    has_rights "before a text replaces a file with an ACL" one/bobs 660
    job_file one/jobs ring 4 "decrypt message bobs" "decrypt message shared/private"
    batch_in one 1
    answered "over a file with an ACL" 'status 0, decrypt done direct'
    has_rights "over a file with an ACL" one/bobs 600
    has_rights "in a folder with an ACL" one/shared/private 600
    show_places "the rights of texts that replace files where there are ACLs"
}

# Runs a batch in the folder as user and group 65534, who are in no other group: batch_as_nobody FOLDER
batch_as_nobody() {
    chown -R 65534:65534 "$1"
    chgrp 0 "$1/sealed" "$1/opened"
    (cd "$1" && setpriv --reuid=65534 --regid=65534 --clear-groups "$program" batch --jobs jobs >../output 2>../report) || fail "a batch of another user" "$(cat output report)"
}

# A file hands on its group where the process may give that, and else a message has no more than a text.
rights_of_groups() {
    local mode
    if [ "$(id -u)" != 0 ] || ! setpriv --reuid=65534 --regid=65534 --clear-groups "$program" gen --seed 1 --size 1 >/dev/null 2>&1; then
        echo "files of another group: not tried, since they can't be made here, or another user can't run the program"
        return
    fi
    make_folder one
    cp framed one/message
    job_file one/jobs ring 4 "encrypt nine sealed" "decrypt message opened"
    : >answers
    for mode in 640 664; do
        echo before | tee one/sealed >one/opened
        chmod "$mode" one/sealed one/opened
        chgrp 2000 one/sealed one/opened
        batch_in one 1
        has_rights "over a file of another group" one/sealed "$mode"
        [ "$(stat -c '%g' one/sealed one/opened | sort -u)" = 2000 ] || fail "over a file of another group" "the group isn't handed on"
    done
    has_rights "over a file of another group" one/opened 644
    batch_as_nobody one
    has_rights "over a file whose group can't be given" one/sealed 644
    chmod 660 one/sealed one/opened
    batch_as_nobody one
    has_rights "over a file whose group can't be given" one/sealed 600
    has_rights "over a file whose group can't be given" one/opened 600
    show_places "the rights of files that replace those of another group"
}

# A name that no file can have is refused at the first turn, so that of a cut message nothing else is said.
names_of_no_file() {
    local name
    make_folder one
    head -c 300 message >one/cut
    echo before >one/there
    : >answers
    for name in '' nothing/ nothing/. sub/ there/ . ..; do
        job_file one/jobs ring 4 "decrypt cut $name" "encrypt nine second"
        batch_in one 1
        answered "writing '$name'" 'status 7, decrypt X3 ShelfFault none'
        opens_as "beside writing '$name'" one/second nine
        no_parts "writing '$name'" one
        [ ! -e one/nothing ] || fail "writing '$name'" "a file was made"
    done
    show_places "a job that writes a name that no file can have"
}

# Files that killed runs left under all names that begin at 0 are no hindrance for a process of the same number.
names_that_are_taken() {
    local status=0
    make_folder one
    job_file one/jobs ring 4 "encrypt nine first"
    # shellcheck disable=SC2016
    (cd one && sh -c 'i=0; while [ "$i" -lt 1100 ]; do : >".esdk-$$-$i.part"; i=$((i + 1)); done; exec "$0" batch --jobs jobs' "$program" >../output 2>../report) || status=$?
    ended "a batch where names of parts are taken" "$status" 0 ''
    same_text "a batch where names of parts are taken" output 'job 1 encrypt done direct'
    opens_as "a batch where names of parts are taken" one/first nine
    [ "$(find one -name '.esdk-*.part' -empty | wc -l)" = 1100 ] || fail "a batch where names of parts are taken" "a file of another run is gone"
}

# Without /proc the program can't tell where its output goes, and replaces nothing.
no_proc() {
    local status=0
    if ! unshare -m sh -c 'mount -t tmpfs none /proc' 2>/dev/null; then
        echo "a run without /proc: not tried, since it can't be hidden here"
        return
    fi
    make_folder one
    echo before >one/there
    job_file one/jobs ring 4 "encrypt nine out" "encrypt nine there" "encrypt nine new"
    # shellcheck disable=SC2016
    (cd one && unshare -m sh -c 'mount -t tmpfs none /proc && exec "$0" batch --jobs jobs' "$program" >out 2>../report) || status=$?
    ended "a batch without /proc" "$status" 7 ''
    same_text "a batch without /proc" one/out 'job 1 encrypt X3 ShelfFault direct' 'job 2 encrypt X3 ShelfFault direct' 'job 3 encrypt done direct'
    same_text "a batch without /proc" one/there before
    opens_as "a batch without /proc" one/new nine
    no_parts "a batch without /proc" one
}

# A batch of 64 jobs side by side opens 132 files. With fewer some jobs are X3, and of what they were to replace a beginning is left; the others are whole.
few_open_files() {
    local most i status jobs=()
    rm -rf many
    mkdir many
    cp ring many
    for ((i = 1; i <= 64; i++)); do
        cp framed "many/m$i"
        jobs+=("decrypt m$i t$i")
    done
    job_file many/jobs ring 64 "${jobs[@]}"
    for most in 132 100 70; do
        for ((i = 1; i <= 64; i++)); do cp nine "many/t$i"; done
        status=0
        (cd many && ulimit -n "$most" && exec "$program" batch --jobs jobs >../output 2>../report) || status=$?
        ended "64 jobs side by side, with $most open files at the most" "$status" "$((most == 132 ? 0 : 7))" ''
        for ((i = 1; i <= 64; i++)); do
            case $(sed -n "s/^job $i //p" output) in
                'decrypt done direct') cmp -s nine "many/t$i" || fail "job $i with $most open files" "it is done, and isn't whole" ;;
                'decrypt X3 ShelfFault '*) front "job $i with $most open files" "many/t$i" nine ;;
                *) fail "job $i with $most open files" "another line" ;;
            esac
        done
        no_parts "64 jobs with $most open files" many
    done
    rm -rf many
}

# While a batch of 64 jobs side by side runs, other files are renamed over its sources, and an output is replaced by a link: each message that is done is of one file whole.
changing_files() {
    local i pid line status=0 jobs=()
    rm -rf many
    mkdir many
    cp ring many/ring
    for i in $(seq 8); do
        head -c 6000000 /dev/urandom >many/in"$i"
        head -c 6000000 /dev/urandom >many/new"$i"
        cp many/in"$i" many/old"$i"
        jobs+=("encrypt in$i out$i")
    done
    job_file many/jobs ring 64 "${jobs[@]}"
    echo victim >many/victim
    (cd many && exec "$program" batch --jobs jobs >../output 2>../report) &
    pid=$!
    for i in $(seq 8); do
        sleep 0.04
        cp many/new"$i" many/other"$i"
        mv many/other"$i" many/in"$i"
        [ "$i" != 2 ] || ln -sf victim many/out2
    done
    wait $pid || status=$?
    ended "a batch whose sources are replaced while it runs" "$status" "0 7" ''
    echo victim | cmp -s - many/victim || fail "an output that is replaced by a link while a batch runs" "it was written by the link"
    for i in $(seq 8); do
        line=$(sed -n "s/^job $i //p" output)
        [ ! -L many/out"$i" ] || continue
        [[ $line == 'encrypt done direct' ]] || { [ "$line" = 'encrypt X3 ShelfFault direct' ] || fail "source $i" "$line"; continue; }
        "$program" decrypt --keyring ring <many/out"$i" >opened 2>opening || fail "source $i" "$(cat opening)"
        cmp -s opened many/old"$i" || cmp -s opened many/new"$i" || fail "source $i" "its message is of no file that was there"
    done
    no_parts "a batch whose sources are replaced while it runs" many
    rm -rf many
}

# A new message has the rights that its own folder gives, whatever another folder gave in the run. A folder may give new
# files rights of its own, past the umask: here to its owner, and to all others for reading.
rights_of_folders() {
    local first second
    make_folder one
    mkdir one/open one/closed
    if ! python3 -c 'import os, struct
entries = b"".join(struct.pack("<HHI", tag, rights, 0xFFFFFFFF) for tag, rights in ((1, 6), (4, 4), (32, 4)))
os.setxattr("one/open", "system.posix_acl_default", struct.pack("<I", 2) + entries)' 2>/dev/null; then
        echo "the rights that folders give: not tried, since there are none here"
        return
    fi
    : >answers
    for first in open closed; do
        second=closed
        [ "$first" = open ] || second=open
        rm -f one/*/sealed one/*/again
        job_file one/jobs ring 4 "encrypt nine $first/sealed" "encrypt nine $second/sealed" "encrypt nine $first/again"
        (umask 077 && cd one && "$program" batch --jobs jobs >../output 2>../report) || fail "folders with rights of their own" "$(cat output report)"
        has_rights "a folder that gives its files to all" one/open/sealed 644
        has_rights "a folder that gives its files to nobody" one/closed/sealed 600
    done
    has_rights "once more in the second folder" one/closed/again 600
    no_parts "a folder that gives its files to all" one/open
    no_parts "a folder that gives its files to nobody" one/closed
    show_places "the rights that folders give to new messages"
}

files_of_a_batch() {
    names_of_one_file
    names_of_a_later_source
    source_that_ends_early
    two_names_of_an_output
    links_as_outputs
    no_regular_files
    names_of_no_file
    names_that_are_taken
    no_proc
    rights
    rights_of_folders
    rights_of_acls
    rights_of_groups
    few_open_files
    changing_files
}
