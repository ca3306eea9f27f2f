# What .ci/run and tools/checks run and count, over a folder in which `rt` and each check are stand-ins. tests/scripts reads it.
# shellcheck shell=sh disable=SC2016,SC2154 # texts for other shells; names of tests/scripts

# A check that notes that it ran, and over which program, and ends as the file of its name in `ends` says: make_check FILE
make_check() {
    mkdir -p "gate/$(dirname "$1")"
    cat >"gate/$1" <<END
#!/bin/sh
echo "$1 \$* \$ESDK" >>"$work/checked"
exit \$(cat "$work/ends/$(basename "$1")" 2>/dev/null || echo 0)
END
    chmod +x "gate/$1"
}

# The same of what makes the library, whose end the file `ends/made` says.
make_library_maker() {
    make_check tools/library
    sed -i 's,ends/library,ends/made,' gate/tools/library
}

make_gate() {
    unset WIDE
    mkdir -p gate/.ci gate/crates/esdk_tool/out with-gate ends
    cp "$top/.ci/run" gate/.ci
    make_check tools/checks
    cp "$top/tools/checks" gate/tools
    for check in tests/scripts tests/outside tests/wide tests/library tests/secrets docs/try_pages vectors/make.py docs/pictures/make docs/trusted with-tools/shellcheck with-tools/mandoc; do
        make_check "$check"
    done
    make_library_maker
    cat >with-gate/rt <<END
#!/bin/sh
echo "rt \$*" >>"$work/checked"
. "$work/gate-does"
END
    for tool in strace cc gcc objcopy valgrind jq python3; do
        printf '#!/bin/sh\nexit 0\n' >"gate/with-tools/$tool"
    done
    chmod +x with-gate/rt gate/with-tools/*
}

# Has `rt` print this line at the end, and end with this status: gate_says STATUS LINE
gate_says() {
    cat >gate-does <<END
echo "rt: something proved"
touch -d 2020-01-01 crates/esdk_tool/out/esdk_tool
chmod +x crates/esdk_tool/out/esdk_tool
echo "$2"
exit $1
END
}

# Runs the gate with an `rt` that does so, and with the library: gate STATUS LINE
gate() {
    : >checked
    gate_says "$@"
    run env -u ESDK -u ESDK_LIBRARY -u BEHIND_CI PATH="$work/with-gate:$work/gate/with-tools:$PATH" gate/.ci/run
}

# The last line is this one: last LINE
last() { [ "$(tail -n 1 output)" = "$1" ]; }

gate_runs() {
    make_gate
    gate 0 '5 passed, 0 failed'
    ended "the gate" 0
    want "the gate counts the checks" last '15 passed, 0 failed'
    want "the gate shows what rt said" grep -qx 'rt: something proved' output
    want "rt ci, with no more words, comes first" [ "$(head -n 1 checked)" = 'rt ci' ]
    want "each check is run over the program that was built" [ "$(cut -d ' ' -f 1,2 checked | tr -s ' \n' ' ')" = \
        "rt ci tests/scripts tests/outside tools/library --behind-ci tests/library tests/secrets docs/try_pages vectors/make.py --check docs/pictures/make --check docs/trusted --check with-tools/shellcheck esdk with-tools/mandoc -T " ]
    want "over that program alone" [ "$(grep -c " $work/gate/crates/esdk_tool/out/esdk_tool\$" checked)" -eq 11 ]
    want "the program is newer than its sources then" [ gate/crates/esdk_tool/out/esdk_tool -nt gate/.ci/run ]
    want "each check stands under its name" [ "$(grep -c '^== ' output)" -eq 10 ]
    for status in 1 2 130; do
        gate "$status" '4 passed, 1 failed'
        ended "the gate where rt ci fails" "$status"
        want "its last line then" last '4 passed, 1 failed'
        want "nothing else is run then" [ "$(cat checked)" = 'rt ci' ]
    done
}

# A library that isn't made is a failure of the check that is over it. Where it is to be left out, none is made.
library_unmade() {
    echo 70 >ends/made
    gate 0 '5 passed, 0 failed'
    rm ends/made
    ended "the gate without a library" 1
    want "the gate without a library names the check" grep -qx "FAILED: tests/library" output
    want "the gate without a library counts it" last '14 passed, 1 failed'
    want "the gate without a library tries none, and all else" [ "$(grep -c '^tests/library' checked)/$(wc -l <checked)" = 0/11 ]
    : >checked
    run env -u ESDK -u ESDK_LIBRARY BEHIND_CI= PATH="$work/with-gate:$work/gate/with-tools:$PATH" gate/.ci/run
    ended "the gate that leaves the library out" 0
    want "the gate that leaves the library out says so" grep -qx 'skipped: tests/library: no library' output
    want "the gate that leaves the library out leaves the ciphers out, too" grep -qx 'skipped: tests/secrets: no ciphers' output
    want "the gate that leaves the library out makes none" [ "$(grep -c '^t[a-z]*/library' checked)" -eq 0 ]
    want "the gate that leaves the library out counts the others" last '13 passed, 0 failed'
    run env -u BEHIND_CI ESDK_LIBRARY=here ESDK="$work/gate/crates/esdk_tool/out/esdk_tool" PATH="$work/gate/with-tools:$PATH" gate/tools/checks
    want "the checks by hand try the library that is named" [ "$(grep -o '^t[a-z]*/library' checked)" = tests/library ]
}

# Each check, failing alone: the others are run, and it is named.
failing_checks() {
    for check in tests/scripts tests/outside tests/library tests/secrets docs/try_pages vectors/make.py docs/pictures/make docs/trusted shellcheck; do
        echo 3 >"ends/$(basename "$check")"
        gate 0 '5 passed, 0 failed'
        rm "ends/$(basename "$check")"
        ended "the gate where $check fails" 1
        want "the gate where $check fails: the others are run" [ "$(wc -l <checked)" -eq 12 ]
        want "the gate where $check fails: it is named" grep -qx "FAILED: $check" output
        want "the gate where $check fails: it is counted" last '14 passed, 1 failed'
    done
    library_unmade
    printf '#!/bin/sh\necho "mandoc: %s/docs/esdk.1:1:2: STYLE: referenced manual not found: Xr esdk-into 1"\nexit 1\n' "$work" >gate/with-tools/mandoc
    gate 0 '5 passed, 0 failed'
    ended "the gate where a page names one that isn't installed" 0
    printf '#!/bin/sh\necho "mandoc: %s/docs/esdk.1:1:2: WARNING: missing section"\nexit 2\n' "$work" >gate/with-tools/mandoc
    gate 0 '5 passed, 0 failed'
    ended "the gate where a page has a fault" 1
    want "the gate where a page has a fault: it is counted" last '14 passed, 1 failed'
    make_check with-tools/mandoc
    for said in 'no count' '5 passed, 0 failed (low and the crates below alone: not the gate)'; do
        gate 0 "$said"
        ended "the gate where rt gives no count: $said" 1
        want "the gate where rt gives no count: $said: that is a failure" last '10 passed, 1 failed'
    done
}

# Runs the gate on such a processor, where ./esdk ends so for `wide` and for `built --wide`: gate_wide KIND STATUS STATUS [WIDE]
gate_wide() {
    printf '#!/bin/sh\necho %s\n' "$1" >gate/tools/choose
    cat >gate/esdk <<END
#!/bin/sh
echo "./esdk \$*" >>"$work/checked"
case \$1 in wide) exit $2 ;; *) exit $3 ;; esac
END
    chmod +x gate/tools/choose gate/esdk
    : >checked
    gate_says 0 '5 passed, 0 failed'
    run env -u ESDK -u ESDK_LIBRARY BEHIND_CI= WIDE="${4-}" PATH="$work/with-gate:$work/gate/with-tools:$PATH" gate/.ci/run
    rm gate/tools/choose gate/esdk
}

# The other program is tried where it is there and this processor is one for it; it is built where that is asked for.
gate_of_both() {
    gate_wide x86-64-v2 0 0
    ended "the gate on another processor" 0
    want "the gate on another processor leaves the other program out, and says so" grep -qx 'skipped: tests/wide: no x86-64-v3' output
    gate_wide x86-64-v3 0 70
    ended "the gate where the other program isn't built" 0
    want "the gate where it isn't built leaves it out, and says so" grep -qx 'skipped: tests/wide: no esdk_tool_wide' output
    want "the gate where it isn't built doesn't build it" [ "$(grep '^./esdk' checked)" = './esdk built --wide' ]
    want "the gate where it isn't built counts the others" last '13 passed, 0 failed'
    gate_wide x86-64-v3 0 0
    ended "the gate where it is built" 0
    want "the gate where it is built tries it" grep -q '^tests/wide ' checked
    want "the gate where it is built counts that" last '14 passed, 0 failed'
    gate_wide x86-64-v3 0 0 1
    want "the gate that is to build it does, behind rt ci and before the checks" [ "$(head -n 3 checked | cut -d ' ' -f 1,2 | tr '\n' ' ')" = 'rt ci ./esdk wide tests/scripts  ' ]
    want "the gate that is to build it tries it" grep -q '^tests/wide ' checked
    gate_wide x86-64-v3 70 70 1
    ended "the gate that is to build it and can't" 1
    want "the gate that can't build it runs the other checks, and counts it" last '13 passed, 1 failed'
}

# What is missing is said, and nothing fails by it; a program that is missing does.
lacking_tools() {
    gate_says 0 '5 passed, 0 failed'
    mkdir few
    for name in bash sh env cat tee tail grep sed awk mktemp rm touch chmod dirname basename readlink; do
        ln -s "$(command -v "$name")" few/
    done
    for tool in cc gcc objcopy valgrind jq python3 shellcheck mandoc; do
        mv "gate/with-tools/$tool" gate/lacking
        : >checked
        run env -u ESDK -u ESDK_LIBRARY -u BEHIND_CI PATH="$work/with-gate:$work/gate/with-tools:$work/few" gate/.ci/run
        ended "the gate without $tool" 0
        want "the gate without $tool says so" grep -q "^skipped: .*: no $tool\$" output
        want "the gate without $tool counts what was skipped" grep -q '^[1-9] skipped: ' output
        want "the gate without $tool counts all others" last "$((5 + 11 - $(grep -c '^skipped: ' output))) passed, 0 failed"
        mv gate/lacking "gate/with-tools/$tool"
    done
    mv gate/with-tools/strace gate/lacking
    : >checked
    run env -u ESDK -u ESDK_LIBRARY -u BEHIND_CI PATH="$work/with-gate:$work/gate/with-tools:$work/few" gate/.ci/run
    ended "the gate without strace" 0
    want "the gate without strace runs tests/outside, which says what it leaves out" grep -q '^tests/outside ' checked
    mv gate/lacking gate/with-tools/strace
    printf '#!/bin/sh\n[ "$1" != -c ]\n' >gate/with-tools/python3
    run env -u ESDK -u ESDK_LIBRARY -u BEHIND_CI PATH="$work/with-gate:$work/gate/with-tools:$PATH" gate/.ci/run
    want "the gate without Python's package says so" [ "$(grep -c '^skipped: .*: no cryptography$' output)" -eq 3 ]
    printf 'echo "5 passed, 0 failed"\n' >gate-does
    rm gate/crates/esdk_tool/out/esdk_tool
    run env -u ESDK -u ESDK_LIBRARY -u BEHIND_CI PATH="$work/with-gate:$work/gate/with-tools:$PATH" gate/.ci/run
    ended "the gate without a program" 1
    want "the gate without a program fails" last '5 passed, 1 failed'
}
