# esdk-archive: rights, hostile archives, signals, progress, and fourteen days. tests/scripts reads it.
# shellcheck shell=sh disable=SC2016,SC2094,SC2154,SC2086 # texts for other shells; one file read and written; names of tests/scripts; several words

# Other users read nothing, also in a folder whose default ACL lets them.
archive_rights() {
    command -v setfacl >/dev/null || { echo "default ACLs: not tried, since there is no setfacl"; return 0; }
    mkdir shared-archive
    setfacl -d -m u::rwx,g::rwx,o::rwx,u:1:rwx shared-archive 2>/dev/null || { echo "default ACLs: not tried, since there are none here"; return 0; }
    archive make key kept shared-archive/arc
    ended "an archive in a folder with a default ACL" 0
    want "nobody else reads it" [ -z "$(getfacl -Rce shared-archive/arc | grep -e '^user:.*#effective:[r-]*[rwx]' -e '^group::.*#effective:[r-]*[rwx]' -e '^other::.*[rwx]' | grep -v -e 'effective:---')" ]
    want "its modes" [ -z "$(find shared-archive/arc ! -perm 600 -type f -o ! -perm 700 -type d)" ]
    archive restore key shared-archive/arc shared-archive/back
    ended "a folder back into one with a default ACL" 0
    want "it has the rights that it had" same_trees kept shared-archive/back
    getfacl -Rcn kept 2>/dev/null | grep -v '^$' >acls
    getfacl -Rcn shared-archive/back 2>/dev/null | grep -v '^$' >acls.back
    want "and the ACLs" cmp acls acls.back
}

# Where a file system has no ACLs, what had one is named, and its group has no rights: in a mode they are the most that an ACL gives.
archive_without_acls() {
    has_acls "a file system without ACLs" || return 0
    mkdir -p granted/below without
    for name in bobs plain 'quo"te'; do
        echo secret >"granted/$name"
        chmod 640 "granted/$name"
    done
    setfacl -m u:1001:rw-,g::---,m::rw- granted/bobs 'granted/quo"te'
    setfacl -d -m u:1001:rwx granted/below
    mount -t ramfs none without 2>/dev/null || { echo "a file system without ACLs: not tried, since nothing can be mounted"; return 0; }
    archive make key granted with-acls
    ended "an archive with ACLs" 0
    archive restore key with-acls without/back
    ended "an archive with ACLs where there are none" 1
    sort report >sorted
    printf 'esdk-archive: without its ACL and the rights of its group: %s\n' below/ bobs 'quo\"te' >due
    want "what had an ACL is named" cmp sorted due
    want "its group has no rights" [ "$(stat -c %a without/back/bobs 'without/back/quo"te' without/back/plain | tr '\n' ' ')" = '600 600 640 ' ]
    archive get key with-acls bobs without/got
    ended "a file with an ACL where there are none" 1
    want "its group has no rights, either" [ "$(stat -c %a without/got/bobs)" = 600 ]
    archive restore key arc without/whole
    ended "an archive without ACLs there" 0
    want "nothing is said of that" [ ! -s report ]
    want "and it is the same" same_trees kept without/whole
    umount without
}

# Whoever has the key makes archives by hand. Nothing is written outside TO: hand_made NAME TAR.. makes one, of an index like `names`.
hand_made() {
    made=$1
    shift
    mkdir "$made"
    parts=0
    for file; do
        parts=$((parts + 1))
        "$ESDK" encrypt --keyring=key archive=00112233445566778899aabbccddeeff "part=$parts" <"$file" >"$made/$parts.esdk"
    done
    "$ESDK" encrypt --keyring=key archive=00112233445566778899aabbccddeeff "parts=$parts" <names >"$made/index.esdk"
}

hostile_archives() {
    mkdir -p hostile/in outer
    echo bad >bad
    ln -s "$work/outer" leading
    tar -cPf up.tar --transform='s,^bad$,../outer/up,' bad
    tar -cPf root.tar --transform="s,^bad\$,$work/outer/root," bad
    tar -cPf link.tar leading
    tar -cPf through.tar --transform='s,^bad$,leading/through,' bad
    cp link.tar both.tar
    tar -rPf both.tar --transform='s,^bad$,leading/through,' bad
    mkdir plainly && tar -C plainly -xf link.tar && tar -C plainly -xf through.tar
    want "a tar that leads through a link of another one writes outside" [ -e outer/through ]
    rm -rf outer/*
    printf '1 0 0 ./../outer/up\n1 0 0 ./leading/through\n1 0 0 ./bad\n1 0 0 .//outer/root\n1 0 0 ./\033]0;title\007\302\233m\342\200\256\330\234\342\201\246\n' >names
    for tars in up.tar root.tar both.tar 'link.tar through.tar'; do
        hand_made "hostile/${tars% *}" $tars
        archive restore key "hostile/${tars% *}" "hostile/in/${tars% *}"
        for name in ../outer/up leading/through bad /outer/root; do
            archive get key "hostile/${tars% *}" "$name" hostile/in/got
        done
        want "$tars writes nothing outside" [ -z "$(ls -A outer)" ]
    done
    want "only what was asked for is beside it" [ -z "$(find hostile/in -mindepth 1 -maxdepth 1 ! -name got ! -name '*.tar')" ]
    archive list key hostile/up.tar
    want "the names of a hostile index steer no terminal" grep -qxF '?]0;title??m???' output
    archive check key hostile/up.tar
    ended "an index of what the parts don't have" 1
    rm -rf leading plainly
}

# Names that differ in case alone become one file on some disks, and `tar` says nothing: here one takes away a file that it made.
archive_members_that_are_lost() {
    mkdir with-losing
    printf '#!/bin/sh\n%s "$@" || exit\n[ "$3" != -x ] || rm -f "$2/deep/-down/-f"\n' "$(command -v tar)" >with-losing/tar
    chmod +x with-losing/tar
    for verb in 'restore key arc lossy' 'restore key packed lossy -- tenant=acme' 'get key arc deep lossy'; do
        run env PATH="$work/with-losing:$PATH" "$share/esdk-archive" $verb
        ended "a member that is lost: $verb" 4
        want "a member that is lost is told: $verb" grep -q '^esdk-archive: [0-9]* of [0-9]* members are there' report
        want "a member that is lost makes nothing: $verb" [ -z "$(find . -path './lossy/*')" ]
    done
    archive get key arc one lossy
    ended "a file beside that" 0
    tar -C kept -cf folderless.tar ./deep/-down/-f
    echo '1 0 0 ./deep/-down/-f' >names
    hand_made folderless folderless.tar
    archive restore key folderless from-folderless
    ended "an archive of a file whose folders vanished meanwhile" 0
    want "the file is there" cmp kept/deep/-down/-f from-folderless/deep/-down/-f
    rm -r lossy folderless from-folderless
}

# A folder that may not be read can't be written out: then its file system is, and where that fails, too, the status says so.
archive_unread_folders() {
    mkdir unsynced
    printf '#!/bin/sh\ncase $* in */ | "-f ./unlucky") exit 1 ;; esac\necho "$*" >>synced-words\n' >unsynced/sync
    chmod +x unsynced/sync
    run env PATH="$work/unsynced:$PATH" "$share/esdk-archive" make key kept dropped
    ended "an archive in a folder that can't be opened" 0
    want "its file system is written out" [ "$(tail -n 1 synced-words)" = "-f ./dropped" ]
    run env PATH="$work/unsynced:$PATH" "$share/esdk-archive" make key kept unlucky
    ended "an archive where nothing can be written out" 4
    want "that is told" grep -qx 'esdk-archive: it may not have reached the disk: ./unlucky' report
    rm -r dropped unlucky
}

# Where another disk lies in TO, what `get` makes could not come there in one step.
archive_over_disks() {
    mkdir -p disks/deep
    mount -t tmpfs none disks/deep 2>/dev/null || { echo "another disk in TO: not tried, since nothing can be mounted"; return 0; }
    archive get key arc deep/again disks
    ended "a file that comes onto another disk in TO" 4
    want "nothing is made there" [ -z "$(ls -A disks/deep)" ]
    want "nothing is left beside it" nothing_left disks
    umount disks/deep
}

# A program that hangs once it has written a half of a part.
archive_stops() {
    cat >hanging.archive <<END
#!/bin/sh
case \$* in *part=2*) echo half; : >"$work/going"; exec sleep 60 ;; esac
exec "$ESDK" "\$@"
END
    chmod +x hanging.archive
    make_slow_sync slow_trees -f
    make_slow_sync slow_parents '*/'
    for signal in HUP INT QUIT TERM; do
        for verb in 'make key kept lately --part 60K' 'restore key arc3 lately' 'check key arc3'; do
            rm -f going
            begin env ESDK="$work/hanging.archive" "$share/esdk-archive" $verb
            want "${verb%% *} that goes on" await [ -e going ]
            stop "$signal"
            ended "$signal in the middle of ${verb%% *}" "$((128 + $(number_of "$signal")))"
            want "$signal in the middle of ${verb%% *} leaves nothing" nothing_left .
            want "$signal in the middle of ${verb%% *} makes nothing" [ ! -e lately ]
        done
    done
    for signal in INT TERM; do
        rm -f syncing
        begin env PATH="$work/slow_trees:$PATH" "$share/esdk-archive" make key kept lately
        want "an archive that is written out" await [ -e syncing ]
        stop "$signal"
        ended "$signal while it is written out" "$((128 + $(number_of "$signal")))"
        want "$signal while it is written out makes nothing" [ ! -e lately ]
        rm -f syncing
        begin env PATH="$work/slow_parents:$PATH" "$share/esdk-archive" make key kept lately
        want "an archive whose folder is written out" await [ -e syncing ]
        stop "$signal"
        ended "$signal once it has its name" 0
        want "$signal once it has its name: it is whole" "$share/esdk-archive" check key lately
        rm -rf lately
    done
    want "signals leave nothing" nothing_left .
    rm -f going
    begin setsid env ESDK="$work/hanging.archive" "$share/esdk-archive" make key kept lately --part 60K
    want "an archive that goes on in a group of its own" await [ -e going ]
    kill -s KILL -- "-$begun"
    wait "$begun" 2>/dev/null || true
    want "KILL makes nothing" [ ! -e lately ]
    rm -rf .esdk-archive.* tmp/esdk-archive.*
    want "KILL leaves nothing else" nothing_left .
}

# On a terminal, which `script` makes, a line tells how far it is.
archive_progress() {
    command -v script >/dev/null || return 0
    printf '#!/bin/sh\ncase $* in *part=1*) sleep 3 ;; esac\nexec "%s" "$@"\n' "$ESDK" >slowly
    chmod +x slowly
    script -qec "ESDK=$work/slowly '$share/esdk-archive' check key arc3" /dev/null </dev/null >typed 2>&1 || true
    want "a line of progress of archives" grep -Eq "[0-9] of $last parts, [0-9.]+ of [0-9.]+ MB" typed
}

# The tree of a day, by its number, out of that of the day before: edits, deletions, renames, kinds that change, modes, links.
live() {
    echo "edited on $1" >>alive/log
    echo "made on $1" >"alive/made $1"
    touch -d "2026-01-$1 12:00:00.$1" "alive/made $1"
    [ "$1" -lt 4 ] || rm -f "alive/made $(printf %02d $((${1#0} - 3)))"
    mv alive/moving* "alive/moving $1"
    if [ -d alive/kind ]; then rm -r alive/kind; echo file >alive/kind; else rm -f alive/kind; mkdir alive/kind; echo in >alive/kind/in; fi
    ln -sfn "made $1" alive/newest
    ln -f alive/log alive/same
    chmod "6$((${1#0} % 8))4" alive/log
    mkdir -p "alive/folder $((${1#0} % 5))"
    [ ! -d "alive/folder $(((${1#0} + 2) % 5))" ] || rmdir "alive/folder $(((${1#0} + 2) % 5))"
    cp -a alive "days/$1"
}

# A night that isn't as others: night DAY. `status` is its own.
night() {
    case $1 in
        09)
            if mount -t tmpfs -o size=4k none small 2>/dev/null; then
                archive make "$ring" alive small/09
                ls -A small >left
                umount small
                want "a full disk has nothing then" [ ! -s left ]
            else
                run sh -c 'ulimit -f 1; exec "$1" make "$2" alive gen/09' sh "$share/esdk-archive" "$ring"
            fi
            ;;
        11) killed_night ;;
        13) cut_night ;;
        *) archive make "$ring" alive "gen/$1" -- "day=$1" ;;
    esac
}

# KILL, once a half of a part is written. What it leaves beside the archives has a name of its own.
killed_night() {
    rm -f going
    printf '#!/bin/sh\ncase $* in *part=1*) echo half; : >going; exec sleep 60 ;; esac\nexec "%s" "$@"\n' "$ESDK" >hanging.night
    chmod +x hanging.night
    begin setsid env ESDK="$work/hanging.night" "$share/esdk-archive" make "$ring" alive gen/11
    want "a night that goes on" await [ -e going ]
    kill -s KILL -- "-$begun"
    status=0
    wait "$begun" 2>/dev/null || status=$?
    want "a night that is killed leaves a folder of its own" [ "$(find gen -mindepth 1 -maxdepth 1 -name '.esdk-archive.*' | wc -l)" -eq 1 ]
}

# A file system in a file, which is copied the moment the archive is there: what a power cut leaves.
cut_night() {
    truncate -s 16M disk
    if ! { mkfs.ext4 -q disk && mkdir -p disk.before disk.behind && mount -o loop disk disk.before; } >/dev/null 2>&1; then
        echo "a power cut: not tried, since nothing can be mounted"
        archive make "$ring" alive gen/13 -- day=13
        return 0
    fi
    archive make "$ring" alive disk.before/13 -- day=13
    cp disk disk.cut
    umount disk.before
    kept_status=$status
    mount -o loop disk.cut disk.behind
    cp -r disk.behind/13 gen/13 || true
    umount disk.behind
    status=$kept_status
}

# A keyring file of two keys, of which the older one, in which the archives until then are, is retired.
retire_key() {
    old=$(head -c 32 /dev/urandom | base64)
    new=$(head -c 32 /dev/urandom | base64)
    echo "backups old $(echo "$old" | base64 -d | od -An -v -tx1 | tr -d ' \n')" >old.key
    node='{"raw":{"namespace":"backups","name":"%s","key":"%s"%s}}'
    # shellcheck disable=SC2059 # the form is in a variable
    printf '{"version":2,"ring":{"multi":{"generator":'"$node"',"children":['"$node"']}}}' new "$new" '' old "$old" '' >both.json
    run "$ESDK" migrate --keyring both.json --retire 3
    cp output retired.json
    # shellcheck disable=SC2059 # the same
    [ "$status" -ne 2 ] ||
        printf '{"version":2,"ring":{"multi":{"generator":'"$node"',"children":['"$node"']}}}' new "$new" '' old "$old" ',"retired":true' >retired.json
}

fourteen_days() {
    mkdir -p alive days gen small
    echo moving >alive/moving
    retire_key
    ring=old.key
    for day in 01 02 03 04 05 06 07 08 09 10 11 12 13 14; do
        live "$day"
        [ "$day" -ne 12 ] || ring=retired.json
        night "$day"
        case $day in
            09 | 11) want "a night that makes no archive has a status: day $day" [ "$status" -ne 0 -a ! -e "gen/$day" ] ;;
            *) ended "the night of day $day" 0 ;;
        esac
    done
    run "$ESDK" decrypt --keyring=old.key <gen/14/1.esdk
    ended "the retired key opens nothing of the last day" 1
    for day in 01 02 03 04 05 06 07 08 10 12 13 14; do
        archive restore retired.json "gen/$day" again -- "day=$day"
        want "day $day comes back as it was" same_trees "days/$day" again
        rm -rf again
    done
    rm -r gen/.esdk-archive.* tmp/esdk-archive.*
    want "fourteen days leave nothing else" nothing_left gen .
}
