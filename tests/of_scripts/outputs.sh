# esdk-into: outputs that are whole or not there. tests/scripts reads it.
# shellcheck shell=sh disable=SC2016,SC2094,SC2154,SC2086 # texts for other shells; one file read and written; names of tests/scripts; several words

outputs() {
    printf 'text' >plain
    run "$share/esdk-into" made cat <plain
    ended "an output" 0
    want "an output is put in place" cmp made plain
    want "a new file is its owner's alone" [ "$(stat -c %a made)" = 600 ]
    chmod 640 made
    run "$share/esdk-into" made tr a-z A-Z <made
    want "input and output are one file" holds made TEXT
    want "a file keeps its mode" [ "$(stat -c %a made)" = 640 ]
    run "$share/esdk-into" made sh -c 'echo half; exit 3'
    ended "a command that fails" 3
    want "a command that fails changes nothing" holds made TEXT
    run "$share/esdk-into" none sh -c 'echo half; exit 3'
    want "a command that fails makes nothing" [ ! -e none ]
    run "$share/esdk-into" made sh -c 'echo half; kill -9 $$'
    ended "a command that is killed" 137
    run "$share/esdk-into" made ./no-command
    ended "a command that isn't there" 127
    run "$share/esdk-into" made cat <&-
    ended "a command that has no input" 1
    run "$share/esdk-into" made sh -c 'ulimit -f 1; head -c 100000 /dev/zero'
    ended "an output that doesn't fit" 153
    run "$share/esdk-into" made bash -o pipefail -c '(echo half; exit 3) | cat'
    ended "a pipe that fails on its left" 3
    run sh -c 'trap "" INT; exec "$1" made say hello' sh "$share/esdk-into"
    ended "a word of the script itself is no command" 127
    want "after all of these the file is as before" holds made TEXT
    want "after all of these nothing is left" nothing_left .
    printf '#!/bin/sh\necho "$*"\n' >run=daily
    chmod +x run=daily
    run "$share/esdk-into" daily ./run=daily a b=c
    want "a command whose name has =" holds daily 'a b=c'
    run env -u LC_ALL "$share/esdk-into" locale sh -c 'echo "${LC_ALL-none}"'
    want "a command has the caller's locale" holds locale none
    for file in '-x' 'two words' "$(printf 'line\nfeed')" "$(printf 'byte\377')" "$(head -c 250 /dev/zero | tr '\0' l)"; do
        run "$share/esdk-into" "$file" echo "$file"
        want "a name as $file" holds "./$file" "$file"
    done
    run "$share/esdk-into" sealed "$ESDK" encrypt --keyring=key file=plain <plain
    run "$share/esdk-into" opened "$ESDK" decrypt --keyring=key file=plain <sealed
    want "the program's output" cmp opened plain
    head -c 150 sealed >cut.esdk
    run "$share/esdk-into" opened "$ESDK" decrypt --keyring=key file=plain <cut.esdk
    ended "the program's refusal" 1
    want "the program's line" holds report 'esdk: M10 Truncated'
}

# The command of docs/RESTORING.md for a dump of a folder in use, where `tar` ends with status 1, since a file changed, or with 2.
dumps_of_folders() {
    sed -n '/^esdk-into docs.esdk .*tar c docs/p' "$top/docs/RESTORING.md" >dump.sh
    want "the page has it in one line" [ "$(wc -l <dump.sh)" -eq 1 ]
    mkdir -p docs dumping
    echo text >docs/file
    cp key backups.key
    ln -s "$ESDK" dumping/esdk
    printf '#!/bin/sh\n%s "$@"\nexit "$(cat said-by-tar)"\n' "$(command -v tar)" >dumping/tar
    chmod +x dumping/tar
    for number in 1 2; do
        echo "$number" >said-by-tar
        run env PATH="$work/dumping:$share:$PATH" sh dump.sh
        ended "a dump, where tar ends with $number" "$((number - 1))"
        want "a dump is there, where tar ends with $number" [ -s docs.esdk ]
        [ "$number" -ne 1 ] || touch -d 2020-02-02 docs.esdk
    done
    want "a dump that isn't whole replaces none" [ "$(stat -c %Y docs.esdk)" -eq "$(date -d 2020-02-02 +%s)" ]
    run sh -c '"$1" decrypt --keyring=key <docs.esdk | tar tf -' sh "$ESDK"
    want "a dump has the file" grep -qx docs/file output
    rm -r docs docs.esdk backups.key dumping
}

# The command has what its caller opened, whichever numbers these have.
numbers() {
    echo more >"more"
    for number in 3 4 5 6 7 8 9; do
        run sh -c 'exec "$1" numbered sh -c "cat; cat <&$2" <plain '"$number"'<"more"' sh "$share/esdk-into" "$number"
        ended "a command with number $number" 0
        want "a command with number $number has it, and its input" holds numbered textmore
    done
    run sh -c 'exec "$1" numbered cat <plain 4<"more" 5<"more" 6<"more" 7<"more" 8<"more" 9<"more"' sh "$share/esdk-into"
    want "a command with all numbers but one has its input" holds numbered text
}

# Under each umask, in folders with a default ACL, of which some name a user: what is written, and what is put in place.
output_rights() {
    has_acls "rights of outputs" || return 0
    for entry in '' ,u:1001:rwx; do
        for mask in 000 022 077; do
            open_folder "outputs$entry" "$entry"
            run sh -c 'umask "$1"; exec "$2" "$3" sh -c "stat -c %a \"\$1\"/.esdk-into.*; umask" sh "${3%/*}"' sh "$mask" "$share/esdk-into" "outputs$entry/$mask"
            ended "an output under umask $mask where a folder gives rights$entry" 0
            want "it is its owner's alone while it is written, and the command has its umask" holds "outputs$entry/$mask" "$(printf '600\n0%s' "$mask")"
            want "it is its owner's alone" [ "$(stat -c %a "outputs$entry/$mask")" = 600 ]
        done
    done
}

# Whether this can play other users; else it says that they aren't. They find the scripts in the folder `played`.
can_play() {
    if [ "$(id -u)" = 0 ] && setpriv --reuid 1001 --regid 100 --groups 100 true 2>/dev/null; then
        chmod 711 "$work"
        [ -d played ] || cp -r "$share" played
        chmod -R a+rX played
        return 0
    fi
    echo "$1: not tried, since other users can't be played here"
    return 1
}

# Runs a command as another user, of these groups: as_user USER GROUP,.. COMMAND..
as_user() {
    user=$1 groups=$2
    shift 2
    run setpriv --reuid "$user" --regid "${groups%%,*}" --groups "$groups" "$@"
}

# Makes the file that is to be replaced, of user 1001: of_theirs FILE GROUP MODE
of_theirs() {
    mkdir -p theirs
    chown 1001 theirs
    rm -f "$1"
    echo old >"$1"
    chown "1001:$2" "$1"
    chmod "$3" "$1"
}

# Who replaces a file of a group that isn't theirs: group and others have what both had. Of one that is, it stays.
replaced_groups() {
    can_play "groups of files that are replaced" || return 0
    while read -r mode left; do
        of_theirs theirs/pay 2000 "$mode"
        as_user 1001 100 played/esdk-into theirs/pay echo secret
        ended "a file of mode $mode whose group can't be kept" 0
        want "it has mode $left then" [ "$(stat -c '%a %u:%g' theirs/pay)" = "$left 1001:100" ]
    done <<'END'
640 600
660 600
664 644
604 600
755 755
4751 711
END
    of_theirs theirs/pay 2000 640
    as_user 1001 100 played/esdk-into theirs/pay echo secret
    as_user 1005 100 cat theirs/pay
    ended "another user of who replaced it can't read it" 1
    of_theirs theirs/pay 2000 640
    as_user 1001 100,2000 played/esdk-into theirs/pay echo secret
    want "a group that can be kept stays, with its rights" [ "$(stat -c '%a %u:%g' theirs/pay)" = "640 1001:2000" ]
    as_user 1005 2000 cat theirs/pay
    want "who could read it can" holds output secret
    as_user 1005 100 cat theirs/pay
    ended "who couldn't read it can't" 1
}

# The rights of a file, of which an ACL hides those of its group behind a mask.
rights_of() { getfacl -cEnp -- "$1"; }

# Makes a file of mode 640 without ACL, and notes its rights: plain_file FILE
plain_file() {
    echo old >"$1"
    setfacl -b "$1"
    chmod 640 "$1"
    rights_of "$1" >due
}

# An ACL is kept, and none comes from the folder; where that can't be, group and others have nothing.
replaced_acls() {
    has_acls "ACLs of files that are replaced" || return 0
    mkdir without-acls
    printf '#!/bin/sh\nexit 1\n' | tee without-acls/getfacl >without-acls/setfacl
    chmod +x without-acls/getfacl without-acls/setfacl
    echo old >bobs
    chmod 600 bobs
    setfacl -m u:1001:rw-,g::---,m::rw- bobs
    rights_of bobs >due
    run "$share/esdk-into" bobs echo secret
    ended "a file with an ACL" 0
    rights_of bobs >rights
    want "its ACL is kept" cmp rights due
    run env PATH="$work/without-acls:$PATH" "$share/esdk-into" bobs echo secret
    ended "a file with an ACL, without the commands for it" 0
    want "it is its owner's alone" [ "$(stat -c %a bobs)" = 600 ]
    # An `install` that leaves what the folder gives.
    mkdir leaving
    printf '#!/bin/sh\nfor file; do :; done\n: >"$file"\nchmod 600 "$file"\n' >leaving/install
    chmod +x leaving/install
    open_folder shared ,u:1001:rwx
    for path in "$PATH" "$work/without-acls:$PATH" "$work/leaving:$PATH"; do
        plain_file shared/priv
        run env PATH="$path" "$share/esdk-into" shared/priv echo secret
        ended "a file without ACL where a folder gives one" 0
        rights_of shared/priv >rights
        want "its rights are as before" cmp rights due
    done
    plain_file shared/priv
    run env PATH="$work/without-acls:$work/leaving:$PATH" "$share/esdk-into" shared/priv echo secret
    ended "such a file, where the folder's ACL can't be taken away" 0
    want "it is its owner's alone" [ "$(stat -c %a shared/priv)" = 600 ]
    can_play "ACLs of files that other users replace" || return 0
    of_theirs theirs/bobs 2000 600
    setfacl -m u:1005:rw-,g::---,m::rw- theirs/bobs
    as_user 1001 100 played/esdk-into theirs/bobs echo secret
    want "a file with an ACL whose group can't be kept is its owner's alone" [ "$(stat -c '%a %u:%g' theirs/bobs)" = "600 1001:100" ]
    of_theirs theirs/bobs 2000 600
    setfacl -m u:1005:rw-,g::---,m::rw- theirs/bobs
    as_user 1001 100,2000 played/esdk-into theirs/bobs echo secret
    as_user 1005 100 cat theirs/bobs
    want "whom an ACL names can read the new file" holds output secret
    as_user 1006 2000 cat theirs/bobs
    ended "whom it doesn't can't" 1
}

# A file that who runs this may not write stays.
unwritable() {
    can_play "files that may not be written" || return 0
    of_theirs theirs/fixed 100 444
    as_user 1001 100 played/esdk-into theirs/fixed sh -c 'echo new; : >theirs/ran'
    ended "a file of mode 444" 4
    want "it stays" holds theirs/fixed old
    want "the command isn't run" [ ! -e theirs/ran ]
    of_theirs theirs/fixed 100 644
    as_user 1001 100 played/esdk-into theirs/fixed sh -c 'echo new; chmod 444 theirs/fixed'
    ended "a file that gets mode 444 meanwhile" 4
    want "it stays, too" holds theirs/fixed old
    want "nothing is left beside it" nothing_left theirs
}

places() {
    ln -s plain link
    for file in link folder /dev/null missing/file; do
        run "$share/esdk-into" "$file" echo no
        ended "a place as $file" 4
    done
    want "what a link leads to is as before" holds plain text
    for file in '' folder/; do
        run "$share/esdk-into" "$file" echo no
        ended "a name as $file" 2
    done
    run "$share/esdk-into" made
    ended "no command" 2
}

# A command that wrote a half is stopped, together with what it started.
stopped_outputs() {
    for signal in HUP INT QUIT TERM; do
        rm -f going
        begin "$share/esdk-into" made sh -c 'echo half; sleep 60 & echo $! >going.part; mv going.part going; wait'
        want "a command that goes on" await [ -e going ]
        stop "$signal"
        ended "$signal in the middle" "$((128 + $(number_of "$signal")))"
        want "$signal in the middle changes nothing" holds made TEXT
        want "$signal in the middle leaves nothing" nothing_left .
        want "$signal in the middle ends what the command started" await is_gone "$(cat going)"
    done
}

# Makes a `sync` that takes a second where its words are so: make_slow_sync FOLDER PATTERN
make_slow_sync() {
    mkdir "$1"
    printf '#!/bin/sh\ncase $1 in %s) : >syncing; sleep 1 ;; esac\n' "$2" >"$1/sync"
    chmod +x "$1/sync"
}

# A file is written out before it gets its name, and its folder behind that.
late_signals() {
    make_slow_sync slow_folders '*/'
    make_slow_sync slow_files '*[!/]'
    for signal in HUP INT QUIT TERM; do
        rm -f syncing
        begin env PATH="$work/slow_folders:$PATH" "$share/esdk-into" late echo "$signal"
        want "a folder that is written out" await [ -e syncing ]
        stop "$signal"
        ended "$signal while the folder is written out" 0
        want "$signal while the folder is written out: the file is the new one" holds late "$signal"
        rm -f syncing
        begin env PATH="$work/slow_files:$PATH" "$share/esdk-into" late echo no
        want "an output that is written out" await [ -e syncing ]
        stop "$signal"
        ended "$signal while the output is written out" "$((128 + $(number_of "$signal")))"
        want "$signal while the output is written out: the file is as before" holds late "$signal"
        want "$signal while it is written out leaves nothing" nothing_left .
    done
}

# A folder that may not be read can't be written out: then its file system is, and where that fails, too, the status says so.
unread_folders() {
    mkdir unsynced unsynced-disk
    printf '#!/bin/sh\ncase $1 in */) exit 1 ;; esac\necho "$*" >>synced-words\n' >unsynced/sync
    printf '#!/bin/sh\ncase $1 in */ | -f) exit 1 ;; esac\n' >unsynced-disk/sync
    chmod +x unsynced/sync unsynced-disk/sync
    for words in 'esdk-into dropped echo new' 'esdk-keygen backups 2026 dropped'; do
        : >synced-words
        run env PATH="$work/unsynced:$PATH" "$share/${words%% *}" ${words#* }
        ended "${words%% *} in a folder that can't be opened" 0
        want "${words%% *} in a folder that can't be opened writes its file system out" [ "$(tail -n 1 synced-words)" = "-f ./dropped" ]
        rm dropped
        run env PATH="$work/unsynced-disk:$PATH" "$share/${words%% *}" ${words#* }
        ended "${words%% *} where nothing can be written out" 4
        rm -f dropped
    done
    want "nothing is left of these" nothing_left .
}

# A key that is made stays, and one that isn't made leaves no file.
late_signals_to_keys() {
    for signal in HUP INT QUIT TERM; do
        rm -f syncing late.key
        begin env PATH="$work/slow_files:$PATH" "$share/esdk-keygen" backups 2026 late.key
        want "a key that is written out" await [ -e syncing ]
        stop "$signal"
        ended "$signal while a key is written out" "$((128 + $(number_of "$signal")))"
        want "$signal while a key is written out leaves no file" [ ! -e late.key ]
        rm -f syncing
        begin env PATH="$work/slow_folders:$PATH" "$share/esdk-keygen" backups 2026 late.key
        want "a key's folder that is written out" await [ -e syncing ]
        stop "$signal"
        ended "$signal while a key's folder is written out" 0
        want "$signal while a key's folder is written out: the key is there" grep -Eqx 'backups 2026 [0-9a-f]{64}' late.key
    done
}
