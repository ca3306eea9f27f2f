# What ./esdk answers itself, over a copy of the checkout whose program is there already; the completion; the help of each script. tests/scripts reads it.
# shellcheck shell=sh disable=SC2016,SC2094,SC2154 # texts for other shells; one file read and written; names of tests/scripts

# The program stands on one crate, `low`; `other` is none of its. All have edits, and what `rt` made of them.
make_checkout() {
    mkdir -p checkout/vectors home/bin
    cp "$top/esdk" "$top/README.md" "$top/CHANGELOG.md" "$top/CONTRIBUTING.md" "$top/SECURITY.md" "$top/VERSION" "$top/HANDLES" checkout
    cp -r "$top/share" "$top/tools" "$top/docs" checkout
    cp "$top/vectors/opening.py" "$top/vectors/README.md" checkout/vectors
    if [ -f "$top/LICENSE" ]; then cp "$top/LICENSE" checkout; else echo "no licence yet" >checkout/LICENSE; fi
    printf '%s\n' '# what stands on what' 'low: json # below' 'other: low' 'esdk_tool: low' >checkout/crates.txt
    for name in low other esdk_tool; do
        mkdir -p "checkout/crates/$name/src" "checkout/crates/$name/must-fail" "checkout/crates/$name/out"
        : >"checkout/crates/$name/src/lib.rt"
        : >"checkout/crates/$name/must-fail/an.edit"
        touch -d '2020-01-01' "checkout/crates/$name/src/lib.rt"
    done
    echo list >checkout/crates/esdk_tool/args
    cat >checkout/crates/esdk_tool/out/esdk_tool <<END
#!/bin/sh
exec "$ESDK" "\$@"
END
    touch -d '2020-01-01' checkout/crates.txt
    chmod +x checkout/crates/esdk_tool/out/esdk_tool
}

answers() {
    run checkout/esdk
    ended "no words" 2
    want "no words: the commands" grep -q 'esdk COMMAND' report
    for words in --help -h help 'help encrypt' 'encrypt --help' 'install --help' 'encrypt --keyring k --help a=b'; do
        # shellcheck disable=SC2086 # several words
        run checkout/esdk $words
        ended "$words" 0
        want "$words: the page" grep -q '^#' output
    done
    run checkout/esdk encrypt --keyring missing -- --help=x </dev/null
    want "--help behind -- is the program's" holds report 'esdk: X3 ShelfFault'
    run checkout/esdk version
    want "the version" grep -Eqx "esdk $(cat "$top/VERSION").*" output
    run checkout/esdk encrypt --keyring=key <plain
    ended "a command" 0
    run checkout/esdk built
    want "the program is named" holds output "$work/checkout/crates/esdk_tool/out/esdk_tool"
}

# What is answered without a program, where a command `rt` notes that it was called.
answers_unbuilt() {
    cp -rp checkout unbuilt
    rm unbuilt/crates/esdk_tool/out/esdk_tool
    mkdir with-noting
    rm -f calls
    printf '#!/bin/sh\necho called >>"%s/calls"\nexit 1\n' "$work" >with-noting/rt
    chmod +x with-noting/rt
    for word in --version -V version; do
        run env PATH="$work/with-noting:$PATH" unbuilt/esdk "$word"
        ended "$word where nothing is built" 0
        want "$word: the version" grep -Eqx "esdk $(cat "$top/VERSION").*" output
    done
    for word in encrpyt --keyring=key -x -- '' 'encrypt ' "$(printf 'a\nlist')"; do
        run env PATH="$work/with-noting:$PATH" unbuilt/esdk "$word" --keyring=key
        ended "no command: $word" 2
        want "no command: $word: the commands" grep -q 'esdk COMMAND' report
        want "no command: $word: nothing on the output" [ ! -s output ]
    done
    run env PATH="$work/with-noting:$PATH" unbuilt/esdk built
    ended "no program is named where there is none" 70
    run env -u ESDK PATH="$work/with-noting:$PATH" python3 unbuilt/docs/try_pages
    ended "the pages' examples without a program" 2
    want "the pages' examples without a program: it is said" grep -q "isn't built" report
    want "nothing of all this begins a build" [ ! -e calls ]
    for word in encrypt decrypt extract list batch audit gen migrate reseal; do
        rm -f calls
        run env PATH="$work/with-noting:$PATH" unbuilt/esdk "$word"
        want "the command $word begins one" [ -s calls ]
    done
}

# A command `rt` that notes what it is called over, does what the file `during` says, and builds the program.
make_builder() {
    mkdir with-builder
    cat >with-builder/rt <<END
#!/bin/sh
echo "\$*" >>"$work/builds"
find . -type f -o -name .git | LC_ALL=C sort >"$work/laid-out"
cp crates.txt "$work/laid-out.crates"
echo '== low'
echo 'fn low::anything: proved'
echo 'rt: low: its tests are proved'
. "$work/during"
mkdir -p crates/esdk_tool/out
printf '#!/bin/sh\nexec "%s" "\$@"\n' "$ESDK" >crates/esdk_tool/out/esdk_tool
chmod +x crates/esdk_tool/out/esdk_tool
echo 'rt: esdk_tool proved'
echo '2 passed, 0 failed'
END
    chmod +x with-builder/rt
    echo "echo 'rt: low proved'" >during
}

# Builds by that command.
build() { run env PATH="$work/with-builder:$PATH" checkout/esdk build; }

# What a build left among the temporary files.
scratch_left() { find tmp -name 'esdk_build.*'; }

builds() {
    make_builder
    echo "sleep 0.1; touch '$work/checkout/crates/esdk_tool/src/main.rt'; echo 'rt: low proved'" >during
    touch checkout/crates/esdk_tool/src/main.rt
    build
    ended "the first build" 0
    want "a build is the gate's command alone" holds builds ci
    want "it says of each crate that it is proved, how many are left, and the time so far" [ "$(tail -n 2 report | tr '\n' '+')" = \
        'esdk: proved low (1 crate left, 0 min so far)+esdk: proved esdk_tool (0 crates left, 0 min so far)+' ]
    want "it says nothing else but that it begins" [ "$(wc -l <report)" -eq 3 ]
    want "these are plain lines" [ "$(tr -d '\n[:print:]' <report | wc -c)" -eq 0 ]
    want "it is of the crates that the program stands on, without their edits and what rt made" [ "$(tr '\n' ' ' <laid-out)" = \
        "./.git ./HANDLES ./crates.txt ./crates/esdk_tool/args ./crates/esdk_tool/src/lib.rt ./crates/esdk_tool/src/main.rt ./crates/low/src/lib.rt " ]
    want "and of their lines" [ "$(tr '\n' ' ' <laid-out.crates)" = "low: json # below esdk_tool: low " ]
    want "a build leaves no scratch folder" [ -z "$(scratch_left)" ]
    echo "echo 'rt: low is kept: an earlier run on this machine proved the same files over the same libraries'" >during
    for time in second third; do
        build
        ended "the $time build" 0
    done
    want "a source that changed during a build is built, and then nothing is" [ "$(wc -l <builds)" -eq 2 ]
    touch -d '2019-01-01' checkout/crates/esdk_tool/src/main.rt
    build
    want "a source that an older one replaced is built" [ "$(wc -l <builds)" -eq 3 ]
    want "what was proved before is said to be" grep -qx 'esdk: low was proved before (1 crate left, 0 min so far)' report
    rm checkout/crates/esdk_tool/src/main.rt
    build
    want "a source that is gone is seen" [ "$(wc -l <builds)" -eq 4 ]
    touch checkout/crates/other/src/lib.rt
    build
    want "a crate that the program doesn't stand on is none of its sources" [ "$(wc -l <builds)" -eq 4 ]
    run checkout/esdk encrypt --keyring=key <plain
    ended "a command of the program that was built" 0
}

# Programs that `rt` itself put there, beside a note of what an older one was built of.
builds_of_rt() {
    printf '#!/bin/sh\n# another\nexec "%s" "$@"\n' "$ESDK" >checkout/crates/esdk_tool/out/esdk_tool
    run checkout/esdk built
    ended "a program that the gate put there, newer than all sources" 0
    touch -d '2019-01-01' checkout/crates/esdk_tool/out/esdk_tool
    run checkout/esdk built
    ended "one that is older than a source" 70
    build
    ended "a build over it" 0
    run checkout/esdk built
    ended "what was built then" 0
}

# A build that fails shows why, leaves nothing, and keeps nothing.
failing_builds() {
    touch checkout/crates/low/src/lib.rt
    for how in 'echo "rt: low NOT PROVED"; echo "0 passed, 2 failed"; exit 1' 'echo "no program"; exit 0' 'echo "half"; kill -9 $$'; do
        echo "$how" >during
        build
        ended "a build that fails: $how" 70
        want "a build that fails shows rt's lines" grep -q '^fn low::anything: proved$' report
        want "a build that fails leaves no scratch folder" [ -z "$(scratch_left)" ]
        run checkout/esdk built
        ended "a build that fails builds nothing" 70
    done
    echo 'echo "rt: low NOT PROVED"; exit 1' >during
    build
    want "a crate that isn't proved is named as it goes" grep -q '^esdk: low could NOT be proved (1 crate left' report
    run env PATH="$work/with-builder:$PATH" TMPDIR=/nonexistent checkout/esdk build
    ended "a build without a place for its scratch folder" 70
}

# A signal ends a build at once, with what it started, and nothing is left.
stopped_builds() {
    echo "echo \$\$ >'$work/running'; exec sleep 600" >during
    for signal in HUP INT QUIT TERM; do
        rm -f running
        begin env PATH="$work/with-builder:$PATH" checkout/esdk build
        want "a build begins" await [ -s running ]
        stop "$signal"
        ended "a build, at $signal" $((128 + $(number_of "$signal")))
        want "a build, at $signal: rt is ended" await is_gone "$(cat running)"
        want "a build, at $signal: no scratch folder is left" [ -z "$(scratch_left)" ]
        want "a build, at $signal: no program" sh -c '! checkout/esdk built'
    done
    echo "echo 'rt: low proved'" >during
    build
    ended "a build behind those that were stopped" 0
}

# A command `rt` that copies its input, notes its words, and prints what `rt try` prints behind a program's own line: trial REPORT WORD..
trial() {
    printf '%b' "$1" >rt.report
    shift
    run env PATH="$work/with-rt:$PATH" checkout/esdk try "$@" <plain
}

trials() {
    mkdir with-rt
    printf '#!/bin/sh\nprintf "%%s\\n" "$@" >"%s/rt.words"\ncat\ncat "%s/rt.report" >&2\n' "$work" "$work" >with-rt/rt
    chmod +x with-rt/rt
    trial '\nchecked: ended status=0\nrun=ended status=0 runners=1 proved=no\n' encrypt --keyring key a=b -- --keyring=c
    ended "a trial" 0
    want "a trial has the input, and its output alone" cmp output plain
    want "a trial says that it is one, and no more" [ "$(wc -l <report)" -eq 1 ]
    want "a trial says that it is unproved" grep -q unproved report
    want "a trial names the keyring file from the root" [ "$(tr '\n' ' ' <rt.words)" = "try -- encrypt --keyring $work/key a=b -- --keyring=c " ]
    trial '\nchecked: ended status=0\nrun=ended status=0 runners=1 proved=no\n' reseal --keyring key --to-keyring=new
    want "a trial of reseal has the input" cmp output plain
    want "a trial names both keyring files from the root" [ "$(tr '\n' ' ' <rt.words)" = "try -- reseal --keyring $work/key --to-keyring=$work/new " ]
    trial '\nchecked: ended status=0\nrun=ended status=0 runners=1 proved=no\n' extract --from=m.esdk --keyring key --at 1
    want "a trial of extract has no input" [ ! -s output ]
    want "a trial names the message from the root" [ "$(tr '\n' ' ' <rt.words)" = "try -- extract --from=$work/m.esdk --keyring $work/key --at 1 " ]
    : >esdk.key
    trial 'rt: a check will refuse this: x\nesdk: M10 Truncated\nchecked: ended status=1\nrun=ended status=1 runners=1 proved=no\n' decrypt --keyring=/k
    ended "a trial of what the program refuses" 1
    want "a trial shows the program's line, and none of rt" [ "$(tail -n +2 report)" = 'esdk: M10 Truncated' ]
    want "a trial hands the keyring of the folder over" [ "$(tr '\n' ' ' <rt.words)" = "try --data esdk.key=$work/esdk.key -- decrypt --keyring=/k " ]
    trial 'error: it is wrong\nrun=none proved=no\n' list
    ended "a trial without an answer" 70
    want "a trial without an answer shows why" grep -q 'it is wrong' report
    for word in batch audit; do
        run checkout/esdk try "$word"
        ended "a trial of $word" 70
    done
}

installs() {
    run checkout/esdk install home/bin
    ended "install" 0
    want "install says of which version" grep -q "installed home/bin/esdk, of version $(cat "$top/VERSION")" report
    for name in esdk $scripts; do
        want "install: $name" [ -x "home/bin/$name" ]
        want "install: its man page" cmp "home/share/man/man1/$name.1" "$top/docs/$name.1"
        want "install: its completion" cmp "home/share/bash-completion/completions/$name" "$top/share/esdk.bash"
    done
    run env -u ESDK home/bin/esdk-tree verify key out
    ended "an installed script finds the program beside it" 0
    for folder in checkout checkout/. checkout/share/..; do
        run checkout/esdk install "$folder"
        ended "install into $folder" 70
    done
    want "the checkout's script is as before" cmp checkout/esdk "$top/esdk"
    run checkout/esdk install missing
    ended "install into no folder" 70
    mkdir -p blocked/bin
    : >blocked/share
    run checkout/esdk install blocked/bin
    ended "install where man pages can't be put" 0
    want "install where man pages can't be put says so" grep -q 'left out the man pages' report
    want "install leaves nothing" nothing_left home blocked
}

# What bash offers for the last of these words: offers FUNCTION WORD..
offers() {
    bash -c '
        . "$1"
        COMP_WORDS=("${@:3}")
        COMP_CWORD=$((${#COMP_WORDS[@]} - 1))
        "$2" "$3"
        echo "${COMPREPLY[*]}"
    ' bash "$share/esdk.bash" "$@" 2>/dev/null
}

completion() {
    want "completion of a command" [ "$(offers _esdk esdk en)" = encrypt ]
    want "completion of an option" [ "$(offers _esdk esdk decrypt --max)" = "--max-keys --max-unit" ]
    want "completion of a flag" [ "$(offers _esdk esdk list --a)" = "--allow-uncommitted --armour" ]
    want "completion of a keyring file" [ "$(offers _esdk esdk encrypt --keyring accen)" = accents ]
    want "completion of a keyring file behind =" [ "$(offers _esdk esdk encrypt --keyring = accen)" = accents ]
    want "completion of the second keyring file" [ "$(offers _esdk esdk reseal --to-keyring accen)" = accents ]
    want "completion of the script's words" [ "$(offers _esdk ./esdk pa)" = package ]
    want "completion of esdk-tree" [ "$(offers _esdk_tree esdk-tree verify key sto)" = store ]
    want "completion of esdk-audit" [ "$(offers _esdk_audit esdk-audit key sto)" = store ]
    want "completion of esdk-jobs" [ "$(offers _esdk_jobs esdk-jobs rep)" = report ]
}

# The scripts of share/, by their names.
scripts=$(cd "$share" && echo esdk-*)

helps() {
    for name in $scripts; do
        want "$name is of the checkout's version" grep -qx "version=$(cat "$top/VERSION")" "$share/$name"
        run "$share/$name" --help
        ended "$name --help" 0
        want "$name --help says how it is used" grep -q "^usage: .*$name" output
        run "$share/$name"
        ended "$name without words" 2
    done
}
