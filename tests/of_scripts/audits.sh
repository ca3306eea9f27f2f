# esdk-audit: which keys messages need, faults, odd names, many messages. tests/scripts reads it.
# shellcheck shell=sh disable=SC2016,SC2094,SC2154 # texts for other shells; one file read and written; names of tests/scripts

# Makes a message of a word: make_message KEYRING FILE PAIR..
make_message() {
    under=$1
    file=$2
    shift 2
    echo text | "$ESDK" encrypt --keyring="$under" "$@" >"$file"
}

audits() {
    mkdir -p 'audited/a folder'
    make_message key audited/one.esdk
    make_message key "audited/a folder/it's \"two\".esdk" set=a
    run "$share/esdk-audit" key audited
    ended "an audit" 0
    want "an audit says which key is needed" holds output 'leaf 1: needed for 2 of 2 messages'
    want "an audit says no more" [ ! -s report ]
    run_in audited "$share/esdk-audit" ../key .
    want "an audit of this folder" holds output 'leaf 1: needed for 2 of 2 messages'
    ln -s audited same-audited
    run "$share/esdk-audit" key same-audited
    want "an audit of a link to a folder" holds output 'leaf 1: needed for 2 of 2 messages'
    run sh -c '"$1" key audited >/dev/full' sh "$share/esdk-audit"
    ended "an audit whose lines can't be written" 4
    echo text >audited/plain
    ln -s one.esdk audited/link.esdk
    run "$share/esdk-audit" key audited
    ended "an audit of a folder with other files" 0
    want "other files are counted" [ "$(tail -n 1 output)" = 'left out, since they are no files with names in .esdk: 2' ]
    make_message key audited/three.esdk tenant:=acme
    run "$share/esdk-audit" key audited
    ended "an audit without the pair of a required key" 1
    want "a message whose pair is missing isn't opened" grep -q 'not opened: ./audited/three.esdk: message . opened-by none' report
    run "$share/esdk-audit" key audited -- tenant:=acme
    ended "an audit with the pair of one message" 1
    want "the others aren't opened, since the pair isn't theirs" [ "$(grep -c 'opened-by none' report)" -eq 2 ]
    rm audited/three.esdk
}

audit_faults() {
    mkdir closed
    make_message key closed/good.esdk
    "$share/esdk-keygen" backups 2026 other-key
    make_message other-key closed/other.esdk
    head -c 100 closed/good.esdk >closed/cut.esdk
    head -c -1 closed/good.esdk >closed/end.esdk
    cp closed/good.esdk "$(printf 'closed/byte\351.esdk')"
    run "$share/esdk-audit" key closed
    ended "an audit with faults" 1
    want "messages that aren't opened aren't needed" holds output 'leaf 1: needed for 2 of 4 messages'
    want "a message under another key is named" grep -q 'not opened: ./closed/other.esdk: message . opened-by none' report
    want "a cut header is named" grep -q 'not opened: ./closed/cut.esdk: message . M10 Truncated' report
    want "a name that isn't UTF-8 is named" grep -q 'no job: ./closed/byte.*: it is not UTF-8' report
    if [ "$(id -u)" != 0 ]; then
        chmod 0 closed/good.esdk
        run "$share/esdk-audit" key closed
        want "a message that can't be read is named" grep -q "not opened: ./closed/good.esdk: it can't be read" report
        mv closed/good.esdk "$(printf 'closed/bell\007.esdk')"
        run "$share/esdk-audit" key closed
        want "a name with a bell is told without it" grep -q "not opened: ./closed/bell?.esdk: it can't be read" report
        mv "$(printf 'closed/bell\007.esdk')" closed/good.esdk
    fi
}

# The lines of several keys, from a program that has them ready, and those of several audit files.
audit_sums() {
    printf '#!/bin/sh\nprintf "message 1 opened-by 1 2\\nmessage 2 opened-by 1\\nleaf 1 needed-for 2\\nleaf 2 needed-for none\\n"\n' >ready
    chmod +x ready
    run env ESDK="$work/ready" "$share/esdk-audit" key audited
    ended "an audit of two keys" 0
    want "an audit of two keys: a line for each" [ "$(head -n 2 output | tr '\n' ';')" = 'leaf 1: needed for 1 of 2 messages;leaf 2: needed for none of 2 messages;' ]
    mkdir many-messages
    for i in $(seq 1001); do ln audited/one.esdk "many-messages/$i.esdk"; done
    # The program starts once for each message: here it is one that starts fast.
    printf '#!/bin/sh\n[ "$1" = extract ] || exec "%s" "$@"\n' "$ESDK" >fast
    chmod +x fast
    run env ESDK="$work/fast" "$share/esdk-audit" key many-messages
    ended "an audit of 1,001 messages" 0
    want "the answers are joined" holds output 'leaf 1: needed for 1001 of 1001 messages'
}

# Files that begin as messages, and whose names don't end in .esdk, may be what needs a key.
audit_others() {
    mkdir others
    make_message key others/a.esdk
    cp others/a.esdk others/b.enc
    cp others/a.esdk "$(printf 'others/line\nfeed \342\200\256 \303\251')"
    printf '\001\200\001\170older' >others/old
    echo text | "$ESDK" encrypt --armour --keyring=key >others/letter.text
    { printf '\357\273\277\r\n \t\n'; cat others/letter.text; } >others/spaced.text
    printf 'AYABeolder' >others/old.text
    printf 'xAgR4' >others/plain
    printf '\002\004\171' >others/bytes
    : >others/empty
    head -c 100000 /dev/zero | tr '\0' ' ' >others/spaces
    ln -s a.esdk others/link
    run "$share/esdk-audit" key others
    ended "an audit with messages under other names" 1
    cat >lines <<'END'
esdk-audit: ./others/b.enc: it begins as a message, and its name doesn't end in .esdk
esdk-audit: ./others/letter.text: it begins as a message, and its name doesn't end in .esdk
esdk-audit: ./others/line?feed ? é: it begins as a message, and its name doesn't end in .esdk
esdk-audit: ./others/old.text: it begins as a message, and its name doesn't end in .esdk
esdk-audit: ./others/old: it begins as a message, and its name doesn't end in .esdk
esdk-audit: ./others/spaced.text: it begins as a message, and its name doesn't end in .esdk
END
    sort lines >due
    sort report >sorted
    want "these are named, and no others" cmp sorted due
    want "all of them are counted" [ "$(tail -n 1 output)" = 'left out, since they are no files with names in .esdk: 11' ]
    rm others/a.esdk
    run "$share/esdk-audit" key others
    ended "an audit of messages under other names alone" 1
    want "they are named, too" [ "$(grep -c 'it begins as a message' report)" -eq 6 ]
}

# Names are told whole, and no message is lost among odd ones.
audit_names() {
    mkdir odd-names
    make_message key odd-names/a.esdk
    for name in ' lead' "$(printf 'a\nb')" 'x y' '*' '$(x)' "it's" 'é'; do cp odd-names/a.esdk "odd-names/$name.esdk"; done
    run "$share/esdk-audit" key odd-names
    ended "an audit of odd names" 0
    want "an audit of odd names: all are opened" holds output 'leaf 1: needed for 8 of 8 messages'
    cat >told-names <<END
#!/bin/sh
if [ "\$1" = extract ]; then
    for word; do case \$word in --from=*) printf '%s\\0' "\${word#--from=}" >>"$work/asked" ;; esac; done
    exit 0
fi
exec "$ESDK" "\$@"
END
    chmod +x told-names
    : >asked
    run env ESDK="$work/told-names" "$share/esdk-audit" key odd-names
    want "the whole file is asked about each of them, by its whole name" \
        [ "$(sort -z asked | tr '\0\n' '\n?')" = "$(find ./odd-names -type f -print0 | sort -z | tr '\0\n' '\n?')" ]
    cp odd-names/a.esdk "$(printf 'odd-names/c1\302\233 bidi\342\200\256 \303\251.esdk')"
    "$share/esdk-keygen" backups 2026 odd-key
    run "$share/esdk-audit" odd-key odd-names
    want "a name that steers a terminal is told without that" grep -q 'not opened: ./odd-names/c1? bidi? é.esdk: message . opened-by none' report
    want "a name with a line feed is told in one line" grep -q 'not opened: ./odd-names/a?b.esdk: message . opened-by none' report
}

# A program under which leaf 2 opens all messages, and the whole file all but one: a stranger's entry stands in that one.
audit_whole() {
    mkdir whole
    for name in a b c; do make_message key "whole/$name.esdk"; done
    cat >strangers <<'END'
#!/bin/sh
case $1 in
    audit) printf 'message 1 opened-by 2\nmessage 2 opened-by 1 2\nmessage 3 opened-by 2\nleaf 1 needed-for none\nleaf 2 needed-for 1 3\n' ;;
    extract)
        echo "$*" >>words
        case $* in *--from=./whole/b.esdk*) echo 'esdk: M16 Commitment' >&2; exit 1 ;; esac
        ;;
esac
END
    chmod +x strangers
    : >words
    run env ESDK="$work/strangers" "$share/esdk-audit" key whole -- -a=b tenant:=acme
    ended "an audit of a message that the whole file doesn't open" 1
    want "it is named with its line" holds report 'esdk-audit: not opened by the whole file: ./whole/b.esdk: esdk: M16 Commitment'
    want "what the leaves open is told as before" [ "$(head -n 2 output | tr '\n' ';')" = 'leaf 1: needed for none of 3 messages;leaf 2: needed for 2 of 3 messages;' ]
    mkdir -p bin
    printf '#!/bin/sh\nexit 127\n' >bin/iconv
    chmod +x bin/iconv
    mv words words-of-one
    run env PATH="$work/bin:$PATH" ESDK="$work/strangers" "$share/esdk-audit" key whole
    ended "that audit, without iconv" 1
    want "it is named there, too" holds report 'esdk-audit: not opened by the whole file: ./whole/b.esdk: esdk: M16 Commitment'
    rm bin/iconv
    sort words-of-one >sorted
    for name in a b c; do echo "extract --keyring=key --from=./whole/$name.esdk --at=0 --count=0 -- -a=b tenant:=acme"; done >due
    want "the whole file is asked with the pairs, once a message" cmp sorted due
}

# Makes a real message of that kind, and keyring files of three keys, and of the last two of them. Who makes it has the first key
# and the third, and puts an entry of the second one in front, copied out of somebody's message: make_stranger ONE TWO THREE SOMEBODY'S
make_stranger() {
    python3 -c '
import base64, json, pathlib, sys
sys.path[:0] = [sys.argv[1] + "/tests", sys.argv[1] + "/vectors"]
sys.dont_write_bytecode = True
import stand_in
keys = [stand_in.key_line(pathlib.Path(name).read_bytes()) for name in sys.argv[2:5]]
entry = stand_in.header_of(pathlib.Path(sys.argv[5]).read_bytes())[2][0]
wrapped = stand_in.wrapped
stand_in.wrapped = lambda key, *rest: key if isinstance(key, bytes) else wrapped(key, *rest)
message = stand_in.seal(b"text", [b"".join(map(stand_in.sized, entry)), keys[0], keys[2]], 4096, {}, {})
pathlib.Path("needless/m.esdk").write_bytes(message)
raws = [{"raw": {"namespace": space, "name": name, "key": base64.b64encode(key).decode()}} for space, name, key in keys]
for name, nodes in (("all.json", raws), ("less.json", raws[1:])):
    pathlib.Path(name).write_text(json.dumps({"version": 1, "ring": {"multi": {"generator": nodes[0], "children": nodes[1:]}}}))
' "$top" "$@"
}

# A key that is needed for none, and without which the whole file doesn't open a message: the audit by the smaller file says so.
audit_strangers() {
    if [ "${ESDK##*/}" = stand_in ] || ! python3 -c 'import cryptography' 2>/dev/null; then
        echo "a stranger's entry: not tried, since that takes the program, and Python with the package cryptography"
        return 0
    fi
    mkdir needless
    for name in one two three; do "$share/esdk-keygen" demo "$name" "$name.key"; done
    make_message two.key somebodys.esdk
    make_stranger one.key two.key three.key somebodys.esdk
    run "$share/esdk-audit" all.json needless
    ended "an audit of a message with a stranger's entry" 0
    want "each key is needed for none" [ "$(grep -c '^leaf [123]: needed for none of 1 messages$' output)" -eq 3 ]
    run "$ESDK" decrypt --keyring=less.json <needless/m.esdk
    want "without the first key the whole file doesn't open it" holds report 'esdk: M16 Commitment'
    run "$ESDK" decrypt --keyring=three.key <needless/m.esdk
    want "the third key does" holds output text
    run "$share/esdk-audit" less.json needless
    ended "an audit by the smaller file" 1
    want "the message is named" holds report 'esdk-audit: not opened by the whole file: ./needless/m.esdk: esdk: M16 Commitment'
}

# An audit by who can't read a folder, or a file.
unread_audits() {
    can_play "audits by other users" || return 0
    mkdir unread unread/closed unread/tmp
    cp audited/one.esdk unread/a.esdk
    cp audited/one.esdk unread/other
    cp audited/one.esdk "$(printf 'unread/bell\007.esdk')"
    chmod 0 unread/closed unread/other "$(printf 'unread/bell\007.esdk')"
    chmod 644 unread/a.esdk
    chown 1001 unread/tmp
    printf '#!/bin/sh\n[ "$1" = extract ] || printf "message 1 opened-by 1\\nleaf 1 needed-for 1\\n"\n' >one-message
    chmod 755 one-message
    as_user 1001 100 env ESDK="$work/one-message" TMPDIR="$work/unread/tmp" played/esdk-audit key unread
    ended "an audit of a folder that can't be read" 1
    want "the folder is named" grep -q 'unread/closed' report
    want "a message that can't be read is named" grep -q "^esdk-audit: not opened: ./unread/bell?.esdk: it can't be read" report
    want "another file that can't be read is named" grep -q "^esdk-audit: ./unread/other: it can't be read" report
    rm -rf unread/closed unread/other unread/bell*
    as_user 1001 100 env ESDK="$work/one-message" TMPDIR="$work/unread/tmp" played/esdk-audit key unread
    ended "an audit of what can be read" 0
}

refused_audits() {
    mkdir no-messages
    run "$share/esdk-audit" key no-messages
    ended "an audit of nothing" 1
    run "$share/esdk-audit" key ''
    ended "an audit of a folder without a name" 2
    run "$share/esdk-audit" key missing
    ended "an audit of no folder" 4
    run "$share/esdk-audit" missing audited
    ended "an audit under no keyring file" 4
    want "the program's line is shown" holds report 'esdk: X3 ShelfFault'
    run "$share/esdk-audit" plain audited
    ended "an audit under no key" 3
    run "$share/esdk-audit" key audited tenant=acme
    ended "an audit with a pair that isn't behind --" 2
    for pair in tenant tenant: =acme :=acme; do
        run "$share/esdk-audit" key audited -- "$pair"
        ended "an audit with the pair $pair" 2
    done
    run env ESDK=/missing "$share/esdk-audit" key audited
    ended "an audit without a program" 70
    want "nothing is left of audits" nothing_left audited closed no-messages
}

# Where a tool fails in the middle, what isn't known isn't taken for good: no status 0.
audits_that_fail() {
    mkdir -p unknown bin
    make_message key unknown/a.esdk
    printf '#!/bin/sh\n[ "$1" != audit ] || { printf "message 1 opened-by none\\nleaf 1 needed-for none\\n"; exit 7; }\n' >closing
    printf '#!/bin/sh\ncase $* in *bare=0*) exit 1 ;; esac\nexec "%s" "$@"\n' "$(command -v awk)" >bin/awk
    chmod +x closing bin/awk
    run env PATH="$work/bin:$PATH" ESDK="$work/closing" "$share/esdk-audit" key unknown
    ended "an audit of a message that no key opens, whose name isn't told" 1
    rm bin/awk
    printf '#!/bin/sh\ncase $* in */names) exit 1 ;; esac\nexec "%s" "$@"\n' "$(command -v sort)" >bin/sort
    chmod +x bin/sort
    run env PATH="$work/bin:$PATH" "$share/esdk-audit" key unknown
    ended "an audit whose names can't be sorted" 4
    rm bin/sort
    run "$share/esdk-audit" key unknown
    ended "an audit without such a failure" 0
    rm -r unknown
}
