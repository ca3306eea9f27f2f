# esdk-tree: what stays, what is gone or in the way, last lines, lists, words, leftovers, rights. tests/scripts reads it.
# shellcheck shell=sh disable=SC2016,SC2094,SC2154,SC2086 # texts for other shells; one file read and written; names of tests/scripts; several words

# What is there is never replaced unasked: not by an older message, nor by a newer one, as those of a copy without times are.
files_that_are_there() {
    mkdir mine
    for name in edited same timed; do echo "text of $name" >"mine/$name"; done
    touch -d 2020-02-02 mine/*
    run "$share/esdk-tree" encrypt key mine lent
    touch lent/edited.esdk lent/same.esdk
    for days in '2 days ago' '2 days'; do
        echo edit >mine/edited
        touch -d "$days" mine/edited
        run "$share/esdk-tree" decrypt key lent mine
        ended "files that are there" 1
        want "a file that differs is named" holds report 'esdk-tree: not done: edited.esdk: a file that differs is there: --replace replaces it'
        want "a file that differs stays" holds mine/edited edit
        want "one with the same text is kept" holds output '0 done, 2 kept as they were, 1 not done'
    done
    echo 'not read' >mine/timed
    touch -r lent/timed.esdk mine/timed
    run "$share/esdk-tree" decrypt --replace key lent mine
    ended "files that are there, which may be replaced" 0
    want "a file that differs is replaced" holds mine/edited 'text of edited'
    want "a file of its message's time is kept unread" holds mine/timed 'not read'
    want "and the last line" holds output '2 done, 1 kept as they were, 0 not done'
    rm mine/edited mine/same
    mkfifo mine/edited
    ln -s nowhere mine/same
    run timeout 60 "$share/esdk-tree" decrypt key lent mine
    want "a pipe and a link to nothing stay" holds output '0 done, 1 kept as they were, 2 not done'
    want "and are as they were" [ -p mine/edited -a -L mine/same ]
    cat >meddling <<END
#!/bin/sh
"$ESDK" "\$@"
status=\$?
[ -e met/timed ] || echo mine >met/timed
exit "\$status"
END
    chmod +x meddling
    rm lent/edited.esdk lent/same.esdk
    run env ESDK="$work/meddling" "$share/esdk-tree" decrypt key lent met
    want "a file that comes meanwhile stays" holds met/timed mine
    ended "a file that comes meanwhile" 1
    rm -rf mine lent met
}

# The keyring file of a run stays, whichever file or message has its name, also among many small ones.
keyring_in_the_way() {
    mkdir ringing ringed
    for name in a b c d e f g h i j held; do echo "text of $name" >"ringing/$name"; done
    run "$share/esdk-tree" encrypt key ringing rung
    cp key ringed/held.esdk
    run "$share/esdk-tree" encrypt ringed/held.esdk ringing ringed
    ended "a keyring file that has a message's name" 1
    want "that is named" holds report 'esdk-tree: not done: held: the file to be made is the keyring file'
    want "a keyring file that has a message's name stays" cmp key ringed/held.esdk
    want "and the others are done" holds output '10 done, 0 kept as they were, 1 not done'
    cp key ringing/held
    ln -s ringing/held rings
    for ring in ringing/held rings; do
        run "$share/esdk-tree" decrypt --replace "$ring" rung ringing
        ended "a keyring file that has a file's name" 1
        want "it is named" holds report 'esdk-tree: not done: held.esdk: the file to be made is the keyring file'
        want "a keyring file that has a file's name stays" cmp key ringing/held
    done
    rm -rf ringing ringed rung rings
}

# Where a message's file is gone, that is counted; it is moved away where that is asked for, and all of FROM could be read.
gone_files() {
    mkdir -p live/deep bin
    for name in a b deep/c; do echo "$name" >"live/$name"; done
    touch -d 2020-02-02 live/b
    run "$share/esdk-tree" encrypt key live kept
    rm live/a live/deep/c
    run "$share/esdk-tree" encrypt key live kept
    ended "files that are gone" 0
    want "files that are gone are counted" holds output '0 done, 1 kept as they were, 0 not done; left out, since they are no files: 1; messages whose files are gone: 2'
    want "their messages stay" [ -e kept/a.esdk -a -e kept/deep/c.esdk ]
    printf '#!/bin/sh\n"%s" "$@"\nexit 1\n' "$(command -v find)" >bin/find
    chmod +x bin/find
    run env PATH="$work/bin:$PATH" "$share/esdk-tree" encrypt --delete key live kept
    ended "a folder that isn't read whole" 1
    want "then no message is moved" [ -e kept/a.esdk ]
    rm bin/find
    run "$share/esdk-tree" encrypt --delete key live kept
    ended "files that are gone, with --delete" 0
    want "they are moved" holds output '0 done, 1 kept as they were, 0 not done; left out, since they are no files: 1; moved to .esdk-tree.gone, since their files are gone: 2'
    want "and aren't in their places" [ ! -e kept/a.esdk -a ! -e kept/deep/c.esdk ]
    want "and are under their paths" [ "$(cd kept/.esdk-tree.gone/* && find . -type f | sort)" = "$(printf './a.esdk\n./deep/c.esdk')" ]
    run "$share/esdk-tree" encrypt key live kept
    want "they aren't told as leftovers" holds output '0 done, 1 kept as they were, 0 not done; left out, since they are no files: 1'
    run "$share/esdk-tree" decrypt key kept/.esdk-tree.gone/* again
    want "what was moved away opens" holds again/deep/c deep/c
    run "$share/esdk-tree" verify key kept
    ended "a folder with messages that were moved away" 0
    want "these are left out, and told" holds output '1 done, 0 kept as they were, 0 not done; left out, since they are no files: 1; left out, since their names begin with .esdk-tree.: 1'
    echo 'another a' >live/a
    run "$share/esdk-tree" encrypt key live kept
    rm live/a
    run "$share/esdk-tree" encrypt --delete key live kept
    want "what was moved before stays" [ "$(find kept/.esdk-tree.gone -name a.esdk -printf x)" = xx ]
    rm -rf live kept again
}

# A file that became a folder, and a folder that became a file: their messages can't both be decrypted.
files_and_folders() {
    mkdir turned
    echo file >turned/a
    run "$share/esdk-tree" encrypt key turned both
    rm turned/a
    mkdir turned/a
    echo below >turned/a/b
    run "$share/esdk-tree" encrypt key turned both
    ended "a file that became a folder" 1
    want "its message is named" holds report "esdk-tree: in the way: a.esdk: its file is gone, and decrypt can't make both: --delete moves it away"
    want "and counted" holds output '1 done, 0 kept as they were, 0 not done; messages whose files are gone: 1'
    for verb in verify decrypt; do
        [ "$verb" = decrypt ] || run "$share/esdk-tree" verify key both
        [ "$verb" = verify ] || run "$share/esdk-tree" decrypt key both made-of-both
        ended "$verb of a file that is a folder, too" 1
        want "$verb names it" holds report 'esdk-tree: not done: a.esdk: a folder has its name, too, and decrypt makes that'
        want "$verb does the other" holds output '1 done, 0 kept as they were, 1 not done'
    done
    want "the folder is made" holds made-of-both/a/b below
    run "$share/esdk-tree" encrypt --delete key turned both
    ended "a file that became a folder, with --delete" 0
    rm -r turned/a
    echo file >turned/a
    run "$share/esdk-tree" encrypt key turned both
    ended "a folder that became a file" 1
    want "what was below is named" holds report "esdk-tree: in the way: a/b.esdk: its file is gone, and decrypt can't make both: --delete moves it away"
    run "$share/esdk-tree" encrypt --delete key turned both
    ended "a folder that became a file, with --delete" 0
    run "$share/esdk-tree" decrypt key both file
    ended "and back" 0
    want "the file is made" holds file/a file
    rm -rf turned both made-of-both file
}

# The last line is said once all is on the disk, so not where `sync` fails, which is played here; nor of nothing.
last_lines_of_folders() {
    mkdir -p hollow empty bin
    echo text >hollow/file
    printf '#!/bin/sh\necho "$*" >>synced\n[ "$1" != -f ] || exit 1\n' >bin/sync
    chmod +x bin/sync
    run env PATH="$work/bin:$PATH" "$share/esdk-tree" encrypt key hollow full
    ended "a disk that isn't reached" 4
    want "then nothing is said to be done" [ ! -s output ]
    want "it was asked for the folder of all" grep -q '^-f .*/full$' synced
    rm bin/sync
    for verb in encrypt decrypt verify; do
        run "$share/esdk-tree" "$verb" key empty new
        [ "$verb" != verify ] || run "$share/esdk-tree" verify key empty
        ended "$verb of a folder without files" 1
        want "$verb of a folder without files says so" holds report 'esdk-tree: there are no files in FROM'
    done
    want "nothing is made of it" [ ! -e new ]
    rm -rf hollow full empty
}

# What a power cut leaves: the copy of a file system in a file, taken the moment that the last line is there.
cut_folders() {
    truncate -s 16M cut.disk
    if ! { mkfs.ext4 -q cut.disk && mkdir -p cut.before cut.behind && mount -o loop cut.disk cut.before; } >/dev/null 2>&1; then
        echo "messages behind a power cut: not tried, since nothing can be mounted"
        return 0
    fi
    mkdir thirty
    for name in $(seq 30); do echo "text of $name" >"thirty/$name"; done
    run "$share/esdk-tree" encrypt key thirty cut.before/store
    cp cut.disk cut.copy
    umount cut.before
    ended "a folder before a power cut" 0
    mount -o loop cut.copy cut.behind
    run "$share/esdk-tree" verify key cut.behind/store
    umount cut.behind
    want "what is said to be done is there behind a power cut" holds output '30 done, 0 kept as they were, 0 not done'
    rm -r cut.* thirty
}

# Files that have one time change places, and one is written over and gets its old time: no message of before stays.
times_that_are_put_back() {
    for words in '' '-- --frame 4096'; do
        mkdir constant
        for name in 1 2 3 4 5 6 7 8 9; do echo "text $name" >"constant/$name"; done
        touch -d @1000000000 constant/*
        run "$share/esdk-tree" encrypt key constant fixed $words
        mv constant/1 moved
        mv constant/2 constant/1
        mv moved constant/2
        echo 'text C' >constant/3
        touch -d @1000000000 constant/3
        run "$share/esdk-tree" encrypt key constant fixed $words
        want "files that change under one time are done again $words" holds output '3 done, 6 kept as they were, 0 not done'
        run "$share/esdk-tree" encrypt key constant fixed $words
        want "and then no more $words" holds output '0 done, 9 kept as they were, 0 not done'
        run "$share/esdk-tree" decrypt key fixed again
        want "what comes back is what they have now $words" diff -r constant again
        rm -r constant fixed again
    done
}

# The list that an encryption writes, and messages that are missing of it.
lists_of_messages() {
    mkdir -p listed/deep
    for name in one 'two words' "$(printf 'line\nfeed')" 'back\slash' deep/three; do echo text >"listed/$name"; done
    run "$share/esdk-tree" encrypt --list names key listed told
    ended "a list" 0
    printf '%s\n' 'back\0134slash.esdk' deep/three.esdk 'line\0012feed.esdk' one.esdk 'two words.esdk' >wished
    want "a list has the names" cmp names wished
    want "a list is its owner's alone" [ "$(stat -c %a names)" = 600 ]
    run "$share/esdk-tree" verify --list names key told
    ended "all that is listed" 0
    rm -f "told/$(printf 'line\nfeed').esdk" told/deep/three.esdk
    run "$share/esdk-tree" verify --list names key told
    ended "messages that are missing" 1
    printf 'esdk-tree: missing: %s: it is on the list, and not in FROM\n' deep/three.esdk 'line?feed.esdk' >wished
    want "they are named" cmp report wished
    want "and counted" holds output '3 done, 0 kept as they were, 0 not done; left out, since they are no files: 1; missing of the list: 2'
    : >names
    run "$share/esdk-tree" verify --list names key told
    ended "a list without names" 4
    run "$share/esdk-tree" encrypt --list missing/names key listed told
    ended "a list that can't be made" 4
    want "nothing is left of lists" [ -z "$(find . -name 'names.*')" ]
    rm -rf listed told names
}

# The keyring file becomes no list, and a list that can't be made whole leaves the older one.
lists_that_fail() {
    mkdir -p listed bin
    for name in one two three; do echo text >"listed/$name"; done
    cp key ring
    ln -s ring link-to-ring
    for file in ring ./ring link-to-ring; do
        run "$share/esdk-tree" encrypt --list "$file" ring listed told
        ended "a list that is the keyring file, as $file" 2
        want "the keyring file stays" cmp ring key
        want "and nothing is made" [ ! -e told ]
    done
    echo older.esdk >names
    printf '#!/bin/sh\nexit 1\n' >bin/sort
    chmod +x bin/sort
    run env PATH="$work/bin:$PATH" "$share/esdk-tree" encrypt --list names key listed told
    ended "a list that can't be sorted" 4
    want "the older list stays" holds names older.esdk
    rm -rf listed told names ring link-to-ring bin/sort
}

# A message that gets another name, as `cp -al` gives it, isn't newer by that than a change of its file under an old time.
times_behind_links() {
    mkdir constant
    for name in 1 2; do echo "text $name" >"constant/$name"; done
    touch -d @1000000000 constant/*
    run "$share/esdk-tree" encrypt key constant fixed
    case $(stat -c %W fixed/1.esdk) in
        0 | -)
            echo "messages with other names: not tried, since this disk doesn't tell when a file was made"
            rm -r constant fixed
            return 0
            ;;
    esac
    mv constant/1 moved
    mv constant/2 constant/1
    mv moved constant/2
    sleep 0.1
    cp -al fixed monday
    for words in '' '-- --frame 4096'; do
        run "$share/esdk-tree" encrypt key constant fixed $words
        want "files that changed before their messages were linked are done again $words" holds output '2 done, 0 kept as they were, 0 not done'
        run "$share/esdk-tree" encrypt key constant fixed
        want "and then no more $words" holds output '0 done, 2 kept as they were, 0 not done'
        run "$share/esdk-tree" decrypt key fixed again
        want "what comes back is what they have now $words" diff -r constant again
        rm -r again fixed
        cp -al monday fixed
    done
    run "$share/esdk-tree" decrypt key monday again
    want "and the older generation is as it was" holds again/1 'text 1'
    rm -r constant fixed monday again
}

# Where nothing tells whether a name is UTF-8, its file isn't done, since it would be bound by another pair.
names_without_iconv() {
    mkdir -p spelled bin
    echo text | tee spelled/plain >spelled/é
    printf '#!/bin/sh\nexit 127\n' >bin/iconv
    chmod +x bin/iconv
    run env PATH="$work/bin:$PATH" "$share/esdk-tree" encrypt key spelled told
    ended "a name of other letters, without iconv" 1
    want "it is named" holds report "esdk-tree: not done: ??: iconv doesn't tell whether its name is UTF-8"
    want "and the other one is done" holds output '1 done, 0 kept as they were, 1 not done'
    rm bin/iconv
    run "$share/esdk-tree" encrypt key spelled told
    run "$share/esdk-tree" verify key told
    want "with iconv all is done, and opens" holds output '2 done, 0 kept as they were, 0 not done'
    rm -r spelled told
}

# What takes a file's name once the names are listed: a pipe isn't waited for, and a link isn't followed.
files_that_turn() {
    mkdir -p turning bin
    echo secret >secret
    for how in mkfifo 'ln -s ../secret'; do
        echo text >turning/odd
        printf '#!/bin/sh\nrm -f turning/odd\n%s turning/odd\nexec "%s"\n' "$how" "$(command -v nproc)" >bin/nproc
        chmod +x bin/nproc
        run env PATH="$work/bin:$PATH" timeout 60 "$share/esdk-tree" encrypt key turning turned
        ended "a file that turns by $how" 1
        want "it is named" holds report "esdk-tree: not done: odd: it can't be read"
        want "and has no message" [ ! -e turned/odd.esdk ]
        rm turning/odd
    done
    rm -r turning turned secret bin/nproc
}

# A refusal is one line with the word that is wrong.
tree_words() {
    while read -r which words; do
        run "$share/esdk-tree" $words
        ended "esdk-tree $words" 2
        want "esdk-tree $words is told in a line" [ "$(wc -l <report)" -eq 1 ]
        want "esdk-tree $words: the word that is wrong" grep -q -e "$which.*; see esdk-tree --help" report
    done <<'END'
encrpyt encrpyt key from to
--remove encrypt --remove key from to
--delete decrypt --delete key from to
--replace encrypt --replace key from to
--list decrypt --list names key from to
KEYRING encrypt
FROM encrypt key
TO encrypt key from
more encrypt key from to more
--list encrypt key from to --list
store verify key from store
file=x encrypt key from to -- set=monday file=x
END
    run "$share/esdk-tree" --version
    want "the version" holds output "esdk-tree $(cat "$top/VERSION")"
    run "$share/esdk-tree" --help
    want "help says what isn't kept" grep -q 'not modes, owners, links' output
}

# What a killed run left has no part in another one, and is told.
leftovers_of_folders() {
    mkdir -p litter/deep beside
    echo text >litter/deep/file
    touch -d 2020-02-02 litter/deep/file
    run "$share/esdk-tree" encrypt key litter beside
    echo part >beside/deep/.esdk-tree.abcdef.123
    mkdir beside/.esdk-tree.ghijkl
    echo part >beside/.esdk-tree.ghijkl/x.esdk
    run "$share/esdk-tree" encrypt key litter beside
    ended "leftovers in TO" 0
    want "leftovers in TO are told" holds output '0 done, 1 kept as they were, 0 not done; leftovers of other runs in TO (.esdk-tree.*): 2'
    run "$share/esdk-tree" verify key beside
    ended "leftovers in FROM" 0
    want "leftovers in FROM are told" holds output '1 done, 0 kept as they were, 0 not done; left out, since their names begin with .esdk-tree.: 2'
    run "$share/esdk-tree" decrypt key beside bare
    ended "a restoring beside leftovers" 0
    want "leftovers aren't restored" [ "$(cd bare && find . -type f)" = ./deep/file ]
    echo mine >litter/.esdk-tree.mine
    run "$share/esdk-tree" encrypt key litter new
    want "a file of such a name is told" holds output '1 done, 0 kept as they were, 0 not done; left out, since their names begin with .esdk-tree.: 1'
    rm -rf litter beside bare new
}

# In a folder that gives new files rights of its own, what is made is its owner's alone all the same: by a run for one file, and by
# batches for many.
rights_of_folders() {
    mkdir shared-tree
    setfacl -d -m u::rwx,g::rwx,o::rwx shared-tree 2>/dev/null || return 0
    mkdir -p private/deep
    echo secret >private/deep/file
    for count in 1 10; do
        run "$share/esdk-tree" encrypt --list shared-tree/names key private shared-tree/messages
        run "$share/esdk-tree" decrypt key shared-tree/messages shared-tree/texts
        ended "a folder of others, $count files" 0
        want "$count files that are made there can't be read by others" [ -z "$(find shared-tree -mindepth 1 -perm /077)" ]
        want "the folders have mode 700" [ "$(stat -c %a shared-tree/texts/deep)" = 700 ]
        for name in 1 2 3 4 5 6 7 8 9; do cp private/deep/file "private/deep/$name"; done
        touch -d 2020-02-02 private/deep/*
        rm -r shared-tree/messages shared-tree/texts
    done
    rm -rf shared-tree private
}

# Bytes of names that steer a terminal don't reach it: an escape, one of eight bits, and marks that turn the direction.
names_of_folders_shown() {
    mkdir odd
    printf odd >"odd/$(printf 'a\033[31m\302\233b\342\200\256c\233d').esdk"
    run "$share/esdk-tree" verify key odd
    want "a name has question marks" holds report 'esdk-tree: not done: a?[31m??b???c?d.esdk: esdk: M1 BadVersion 111'
    rm -rf odd
}
