# esdk-archive: folders there and back, single files, faults, changes meanwhile, full disks. tests/scripts reads it.
# shellcheck shell=sh disable=SC2016,SC2094,SC2154,SC2086 # texts for other shells; one file read and written; names of tests/scripts; several words

# The script over a program of one's own, or the one that is tried: archive WORD..
archive() { run "$share/esdk-archive" "$@"; }

# What a folder has: names, kinds, modes, owners, times, lengths, links and their number.
listed() {
    (cd "$1" && find . -type d -printf '%P/ %m %U:%G %T@ %n\n' -o -printf '%P %y %m %U:%G %T@ %s %n %l\n') | sort
}

# Two folders are the same: same_trees ONE OTHER
same_trees() {
    listed "$1" >one.listed
    listed "$2" >other.listed
    diff one.listed other.listed && diff -r --no-dereference -x fifo "$1" "$2"
}

# A folder `kept` with all kinds of things in it, 29 with itself.
make_kept() {
    mkdir -p kept/deep/-down kept/empty kept/sealed
    for name in one 'two  words' '-lead' 'a=b' '$HOME' '*' 'é' "quo'te\"s" 'back\slash' 'link to' 'a -> b' "$(printf 'line\nfeed')" \
        "$(printf 'byte\377')" "$(printf 'esc\0331')" "$(printf 'right\342\200\256left')" "$(head -c 250 /dev/zero | tr '\0' l)"; do
        printf 'text of %s' "$name" >"kept/$name"
    done
    ln kept/one kept/deep/again
    ln -s one kept/link
    ln -s /nowhere/at/all kept/dangling
    ln -s .. kept/deep/up
    mkfifo kept/fifo
    truncate -s 3M kept/holes
    echo end >>kept/holes
    head -c 200000 /dev/urandom >kept/deep/-down/-f
    : >kept/sealed/nothing
    chmod 4750 kept/one
    chmod 644 kept/sealed/nothing
    chmod 555 kept/sealed
    touch -hd '2020-02-02 02:02:02.123456789' kept/link kept/empty kept/-lead
    touch -d '1999-09-09 09:09:09.5' kept
}

archive_there_and_back() {
    make_kept
    archive make key kept arc
    ended "an archive" 0
    want "an archive: the last line" grep -qx '29 members in 1 parts, [0-9]* bytes; changed while they were read: 0; not read: 0' output
    want "an archive: nothing on standard error" [ ! -s report ]
    want "an archive is its owner's alone" [ -z "$(find arc ! -perm 600 -type f -o ! -perm 700 -type d)" ]
    archive list key arc
    ended "the names" 0
    want "the names: one a line" [ "$(wc -l <output)" -eq 29 ]
    for name in one 'two  words' 'é' 'quo'\''te"s' 'back\\slash' 'line\nfeed' 'byte\377' 'esc\0331' 'right\342\200\256left' deep/-down/-f empty/ 'a -> b'; do
        want "the names have $name" grep -qxF -e "$name" output
    done
    archive check key arc
    ended "a check" 0
    want "a check: the last line" grep -qx '29 members in 1 parts, [0-9]* bytes' output
    archive restore key arc back
    ended "an archive back" 0
    want "an archive back is the same" same_trees kept back
    want "two names of one file are two names of one file" [ back/one -ef back/deep/again ]
    want "holes stay holes" [ "$(stat -c %b back/holes)" -lt 1000 ]
    archive make key kept packed --part 60K --zstd -- set=monday 'tenant:=acme' --frame 100
    ended "an archive in parts" 0
    want "it has some parts" [ "$(find packed -name '[0-9]*.esdk' | wc -l)" -gt 2 ]
    archive restore key packed unpacked
    ended "an archive without its required pair" 1
    want "nothing is made of it" [ ! -e unpacked ]
    archive restore key packed unpacked -- tenant=acme
    ended "an archive in parts back" 0
    want "an archive in parts back is the same" same_trees kept unpacked
    archive check key packed -- tenant=acme set=monday
    ended "a check of parts" 0
    want "nothing is left" nothing_left .
}

archive_gets() {
    archive get key arc deep got
    ended "a folder out of an archive" 0
    want "a folder out of an archive is the same" diff -r --no-dereference kept/deep got/deep
    rm -r got
    for name in one deep/-down/-f 'two  words' "$(printf 'byte\377')" "$(printf 'line\nfeed')" "$(printf 'esc\0331')" 'back\slash' holes link sealed; do
        archive get key packed "$name" got -- tenant=acme
        ended "$name out of an archive in parts" 0
        want "$name out of an archive in parts is the same" diff -r --no-dereference "kept/$name" "got/$name"
    done
    want "a mode comes with the file" [ "$(stat -c %a got/one)" = 4750 ]
    want "a folder's mode comes with it" [ "$(stat -c '%a %y' got/sealed)" = "$(stat -c '%a %y' kept/sealed)" ]
    archive get key arc deep/again found
    ended "the second name of a file" 0
    want "the second name of a file has its text" cmp kept/one found/deep/again
    want "and it comes alone" [ "$(find found | wc -l)" -eq 3 ]
    for name in 'line\nfeed' 'byte\377' 'right\342\200\256left' empty/ ./-lead; do
        archive get key arc "$name" found
        ended "$name as list shows it" 0
    done
    want "they have their names" [ -f "found/$(printf 'line\nfeed')" -a -f "found/$(printf 'right\342\200\256left')" -a -d found/empty ]
    for name in none deep/none .. ../one /one on; do
        archive get key arc "$name" found
        ended "$name, which isn't in it" 4
    done
    echo mine >mine
    mkdir linked
    ln -s "$work" linked/deep
    archive get key arc deep/-down/-f linked
    ended "a name that a link leads out of TO" 4
    want "nothing is made there" [ ! -e ./-down ]
    archive get key arc one got
    ended "a name that is there" 4
    want "nothing is left by these" nothing_left got found linked
    cat >counting <<END
#!/bin/sh
case \$* in *decrypt*part=*) echo all >>reads ;; esac
exec "$ESDK" "\$@"
END
    chmod +x counting
    rm -rf got
    run env ESDK="$work/counting" "$share/esdk-archive" get key arc deep/-down/-f got
    want "a file of an archive is had without all of it" [ ! -e reads ]
}

# Parts that are exchanged, altered, cut and missing. Each costs its part alone.
archive_faults() {
    archive make key kept arc3 --part 60K
    archive make key kept arc4 --part 60K
    last=$(find arc3 -name '[0-9]*.esdk' | wc -l)
    cp -r arc3 bad
    cp arc3/1.esdk bad/2.esdk
    faulty "a part in another's place" '2.esdk: esdk: M12 ContextMismatch "part"'
    cp arc4/2.esdk bad/2.esdk
    faulty "a part of another archive" '2.esdk: esdk: M12 ContextMismatch "archive"'
    rm bad/2.esdk
    faulty "a part that is missing" '2.esdk: it is missing'
    head -c 300 arc3/2.esdk >bad/2.esdk
    faulty "a part that is cut" '2.esdk: esdk: M10 Truncated'
    cp arc3/2.esdk bad/2.esdk
    cp arc4/index.esdk bad/index.esdk
    faulty "the index of another archive" '[0-9]*.esdk: esdk: M12 ContextMismatch "archive"'
    for _ in 1 2 3 4 5 6 7 8; do
        archive check key bad
        ended "parts that are refused at once" 1
    done
    cp arc3/1.esdk bad/index.esdk
    faulty "a part as the index" 'index.esdk: it is no index'
    rm bad/index.esdk
    faulty "no index" 'index.esdk: it is missing'
    cp arc3/index.esdk bad/index.esdk
    (head -c 1000 arc3/2.esdk; printf '\001'; tail -c +1002 arc3/2.esdk) >bad/2.esdk
    ! cmp -s arc3/2.esdk bad/2.esdk || (head -c 1000 arc3/2.esdk; printf '\002'; tail -c +1002 arc3/2.esdk) >bad/2.esdk
    faulty "an altered byte" '2.esdk: esdk: M20 UnitTag 1'
    rm -rf got
    archive get key bad "$("$share/esdk-archive" list key bad | head -n 1)" got
    ended "a file of another part" 0
    archive get key bad link got
    ended "a link of another part" 0
    rm -rf bad got
    want "the last part alone has folders and links" [ "$last" -gt 2 ]
    number=$("$ESDK" list <arc3/1.esdk | sed -n 's/.*"archive":"\([0-9a-f]*\)".*/\1/p')
    "$ESDK" decrypt --keyring=key "archive=$number" part=1 <arc3/1.esdk 2>/dev/null | tar -tv | cut -c 1 | sort -u >kinds
    want "a part in front has files alone" [ "$(grep -c '[dl]' kinds)" -eq 0 ]
}

# What check, restore and the line say of the archive `bad`: faulty WHAT LINE
faulty() {
    for verb in 'check key bad' 'restore key bad badly'; do
        archive $verb
        ended "$1: ${verb%% *}" 1
        want "$1: ${verb%% *} names it" grep -qx "esdk-archive: $2" report
    done
    want "$1: nothing is made" [ ! -e badly ]
    want "$1: nothing is left" nothing_left .
}

# Files that change, vanish and can't be read.
archive_changes() {
    mkdir living with-tar
    head -c 300000 /dev/urandom >living/a
    echo b >living/b
    echo c >living/c
    cat >writing <<END
#!/bin/sh
case \$* in *part=1*) head -c 20000 >front; echo more >>living/a; cat front - | "$ESDK" "\$@"; exit ;; esac
exec "$ESDK" "\$@"
END
    printf '#!/bin/sh\nrm -f living/b\nexec %s "$@"\n' "$(command -v tar)" >with-tar/tar
    chmod +x writing with-tar/tar
    run env ESDK="$work/writing" "$share/esdk-archive" make key living changed
    ended "a file that changes" 1
    want "a file that changes is named" grep -q '"./a": file changed as we read it' report
    want "a file that changes is counted" grep -q 'changed while they were read: 1; not read: 0$' output
    run env PATH="$work/with-tar:$PATH" "$share/esdk-archive" make key living vanished
    ended "a file that vanishes" 1
    want "a file that vanishes is named" grep -qx 'esdk-archive: not read: b' report
    want "a file that vanishes is counted" grep -q '^3 members .*changed while they were read: 0; not read: 1$' output
    archive restore key vanished remaining
    want "the others are there" same_trees living remaining
    archive check key changed
    ended "a check of an archive of a file that changed" 0
    chmod 000 living/c
    mkdir living/closed
    echo d >living/closed/d
    chmod 000 living/closed
    without="setpriv --bounding-set=-dac_override,-dac_read_search --inh-caps=-dac_override,-dac_read_search"
    [ "$(id -u)" -eq 0 ] || without=
    if $without sh -c '! cat living/c' 2>/dev/null; then
        run $without "$share/esdk-archive" make key living unread
        ended "files that can't be read" 1
        want "a file that can't be read is named" grep -qx 'esdk-archive: not read: c' report
        want "a folder that can't be read is named" grep -q 'closed' report
        want "an archive is made of the rest" "$share/esdk-archive" check key unread
    else
        echo "files that can't be read: not tried, since all can be read here"
    fi
    chmod -R u+rwx living
}

refused_archives() {
    mkdir void
    archive make key void never
    ended "a folder without files" 1
    want "a folder without files is told" holds report 'esdk-archive: there are no files in ./void'
    archive make key missing never
    ended "no folder" 4
    archive make missing living never
    ended "no keyring file" 4
    want "no keyring file: the program's line" grep -q 'X3 ShelfFault' report
    archive make key living never -- --frame x
    ended "words that the program refuses" 2
    for size in 0 -5 x 1Q ''; do
        archive make key living never --part "$size"
        [ -z "$size" ] || ended "a size as $size" 2
    done
    rm -rf never
    archive make key living never --other
    ended "another option" 2
    archive make key living living/never
    ended "ARCHIVE in FOLDER" 2
    run timeout 10 "$share/esdk-archive" make key / never
    ended "ARCHIVE in FOLDER, which is all of the machine" 2
    archive make key living missing/never
    ended "ARCHIVE in no folder" 4
    want "none is made by these" [ ! -e never -a ! -e living/never ]
    cp -r arc stays
    archive make key living stays
    ended "an ARCHIVE that is there" 4
    want "an ARCHIVE that is there stays" diff -r arc stays
    mkdir there
    archive restore key arc there
    ended "a TO that is there" 4
    archive restore key arc arc/in
    ended "TO in ARCHIVE" 2
    ln -s nowhere leads
    archive restore key arc leads
    ended "a TO that is a link" 4
    archive restore key missing never
    ended "no ARCHIVE" 4
    run env ESDK=/missing "$share/esdk-archive" make key living never
    ended "no program for archives" 70
    run_in living "$share/esdk-archive" make ../key . ../-dash
    ended "names with dots and dashes" 0
    run_in . "$share/esdk-archive" restore key -dash -back
    ended "names with dashes" 0
    want "names with dashes: the same" same_trees living ./-back
    want "nothing is left by refused archives" nothing_left .
    run "$share/esdk-archive" --version
    want "the script tells its version" holds output "esdk-archive $(cat "$top/VERSION")"
}

# A disk that is full, and one that gets full while a folder comes back.
archive_full_disks() {
    run sh -c 'ulimit -f 200; exec "$1" make key kept full' sh "$share/esdk-archive"
    want "a file that gets too long: a status" [ "$status" -ne 0 ]
    want "a file that gets too long: nothing is made" [ ! -e full ]
    mkdir small
    if ! mount -t tmpfs -o size=128k none small 2>/dev/null; then
        echo "full disks: not tried, since nothing can be mounted"
        return 0
    fi
    archive make key kept small/full
    ended "a full disk" 4
    want "a full disk: nothing is left" [ -z "$(ls -A small)" ]
    archive restore key arc small/full
    ended "a full disk for a folder that comes back" 4
    want "a full disk for a folder that comes back: nothing is left" [ -z "$(ls -A small)" ]
    head -c 120k /dev/zero >small/fill
    run env TMPDIR="$work/small" "$share/esdk-archive" make key kept full
    want "a full folder of notes: a status" [ "$status" -ne 0 ]
    want "a full folder of notes: nothing is made" [ ! -e full ]
    head -c 112k /dev/zero >small/fill
    run env TMPDIR="$work/small" "$share/esdk-archive" check key arc
    ended "a check whose folder of notes gets full" 4
    umount small
}

# An index that is longer than what a pipe holds: each of its names is found, the first one, too.
archive_of_many() {
    mkdir crowd
    (cd crowd && seq -f '%0100g' 2000 | xargs touch)
    archive make key crowd crowded
    ended "an archive of 2,000 files" 0
    for number in 1 1000 2000; do
        archive get key crowded "$(printf '%0100d' "$number")" "from-crowd-$number"
        ended "file $number of 2,000" 0
        want "file $number of 2,000 alone" [ "$(ls "from-crowd-$number")" = "$(printf '%0100d' "$number")" ]
    done
    rm -rf crowd crowded from-crowd-*
}
