# What ./esdk wide and ./esdk install --wide do, over a command that stands in for `rt`. tests/scripts reads it.
# shellcheck shell=bash disable=SC2016,SC2154 # texts for other shells; names of tests/scripts

# The crates that tools/wide looks at, and a command `rt` that notes how it is called, over what, and what the line says, and builds
# a program. One of cases answers what the file `answers` says, and then its input.
make_wide_builder() {
    mkdir -p checkout/crates/plane_width/src with-wide
    cp "$top/crates/plane_width/src/lib.rt" checkout/crates/plane_width/src
    for crate in cipher_cases codec_cases run_cases; do
        mkdir -p "checkout/crates/$crate/src" "checkout/crates/$crate/must-fail" "checkout/crates/$crate/out"
        : >"checkout/crates/$crate/src/main.rt"
        echo "what rt made of the other line" >"checkout/crates/$crate/out/made"
        echo "calls of $crate" >"checkout/crates/$crate/stdin"
        printf '%s\n' "the answers" "calls of $crate" >"checkout/crates/$crate/stdout"
    done
    echo "the answers" >answers
    cat >with-wide/rt <<END
#!/bin/sh
name=\${PWD##*/}
echo "\$name \$*" >>"$work/wide-calls"
sed -n '/^    /p' ../plane_width/src/lib.rt >>"$work/wide-lines"
find . -name must-fail -o -name made >>"$work/wide-found"
if [ "\$name" = "\$(cat "$work/wide-fails" 2>/dev/null)" ]; then
    echo "rt: \$name NOT PROVED" >&2
    exit 1
fi
mkdir -p out
echo "one more build" >>out/kept
case \$name in
    *_cases) printf '#!/bin/sh\nexec cat "%s" -\n' "$work/answers" >"out/\$name" ;;
    *) printf '#!/bin/sh\necho "the wide one of %s"\n' "\$name" >"out/\$name" ;;
esac
chmod +x "out/\$name"
END
    chmod +x with-wide/rt
}

# What Linux says of a processor with AVX2, and of one of 2008: those of x86-64-v3, and of x86-64-v2 alone.
make_processors() {
    old='fpu vme de pse tsc msr pae mce cx8 apic sep mtrr pge mca cmov pat pse36 clflush mmx fxsr sse sse2 ss ht syscall nx rdtscp lm constant_tsc rep_good nopl pni ssse3 cx16 sse4_1 sse4_2 popcnt lahf_lm'
    printf 'processor\t: 0\nmodel name\t: an old one\nflags\t\t: %s\nbugs\t\t:\n' "$old" >cpu-v2
    printf 'processor\t: 0\nmodel name\t: a new one\nflags\t\t: %s\nbugs\t\t:\n' "$old fma movbe xsave avx f16c abm fsgsbase bmi1 avx2 smep bmi2 erms" >cpu-v3
}

# Which program is chosen where one thing is missing, or all is there.
kinds() {
    for flag in pni ssse3 sse4_1 sse4_2 cx16 popcnt lahf_lm avx avx2 bmi1 bmi2 f16c fma abm movbe xsave; do
        sed "s/ $flag / /; s/ $flag\$//" cpu-v3 >cpu-less
        run env CPUINFO=cpu-less "$top/tools/choose" --kind
        want "a processor without $flag isn't of x86-64-v3" holds output x86-64-v2
    done
    run env CPUINFO=cpu-v3 "$top/tools/choose" --kind
    want "a processor with all of it is of x86-64-v3" holds output x86-64-v3
    for file in cpu-v2 missing .; do
        run env CPUINFO=$file "$top/tools/choose" --kind
        want "what $file says isn't x86-64-v3" holds output x86-64-v2
    done
}

# As on a processor of this kind, and with that `rt`: wide_esdk KIND WORD..
wide_esdk() {
    cpu=$1
    shift
    run env CPUINFO="$work/cpu-$cpu" ESDK_WIDE_FOLDER="$work/wide-folder" PATH="$work/with-wide:$PATH" checkout/esdk "$@"
}

# Nothing that was built wrongly is installed, or kept for the next time.
wide_faults() {
    wide_esdk v3 install --wide
    ended "install --wide without a folder" 2
    wide_esdk v2 install --wide wide-home/bin
    ended "install --wide on another processor" 70
    want "install --wide on another processor builds nothing" [ ! -e wide-calls ]
    echo "other answers" >answers
    wide_esdk v3 install --wide wide-home/bin
    ended "install --wide where a case ends otherwise" 70
    want "it says which program of cases that was" grep -q 'cipher_cases answers otherwise' report
    echo "the answers" >answers
    for crate in cipher_cases codec_cases run_cases esdk_tool; do
        echo "$crate" >wide-fails
        wide_esdk v3 install --wide wide-home/bin
        ended "install --wide where $crate isn't proved" 70
        want "it shows what rt said of $crate" grep -qx "rt: $crate NOT PROVED" report
    done
    rm wide-fails
    want "none of these is installed" [ -z "$(ls wide-home/bin)" ]
    want "nor kept" [ -z "$(find checkout/crates/esdk_tool/out -name 'esdk_tool_wide*')" ]
    run checkout/esdk built --wide
    ended "none of these is named" 70
}

# What it is built of, and that it is built once.
wide_builds() {
    rm -f wide-calls wide-lines wide-found
    wide_esdk v3 install --wide wide-home/bin
    ended "install --wide" 0
    want "the wide program is installed" [ "$(wide-home/bin/esdk)" = "the wide one of esdk_tool" ]
    want "it is built for such processors, the cases first" holds wide-calls "$(printf '%s run --cpu=x86-64-v3\n' cipher_cases codec_cases run_cases esdk_tool)"
    want "of the line that says so" holds wide-lines "$(printf '    %s\n' true true true true)"
    want "over no edits, and nothing that rt made of the other line" [ ! -s wide-found ]
    want "the sources are as before" cmp checkout/crates/plane_width/src/lib.rt "$top/crates/plane_width/src/lib.rt"
    want "the programs of the cases lie beside it" [ "$(cd checkout/crates/esdk_tool/out && echo esdk_tool_wide.*_cases)" = \
        "esdk_tool_wide.cipher_cases esdk_tool_wide.codec_cases esdk_tool_wide.run_cases" ]
    want "install --wide leaves nothing" [ -z "$(find tmp -name 'esdk_wide.*')" ]
    run checkout/esdk built --wide
    want "the wide program is named" holds output "$work/checkout/crates/esdk_tool/out/esdk_tool_wide"
    rm wide-calls
    wide_esdk v3 wide
    ended "a wide program that is of the sources" 0
    want "it isn't built again" [ ! -e wide-calls ]
    run checkout/esdk install wide-home/bin
    ended "install over it" 0
    want "install without --wide takes the other program" [ "$(wide-home/bin/esdk version)" != "the wide one of esdk_tool" ]
}

# The folder keeps what rt made there, and has the sources of today.
wide_folder() {
    mkdir -p wide-folder/crates/gone/src
    : >checkout/crates/low/src/added.rt
    run checkout/esdk built --wide
    ended "a wide program of other sources isn't named" 70
    builds=$(wc -l <wide-folder/crates/run_cases/out/kept)
    wide_esdk v3 wide
    ended "a wide program of other sources" 0
    want "it is built over what rt kept" [ "$(wc -l <wide-folder/crates/run_cases/out/kept)" -eq $((builds + 1)) ]
    want "of a source that came" [ -e wide-folder/crates/low/src/added.rt ]
    want "without a crate that went" [ ! -e wide-folder/crates/gone ]
    rm checkout/crates/low/src/added.rt
    run env -u ESDK_WIDE_FOLDER CPUINFO="$work/cpu-v3" XDG_CACHE_HOME="$work/caches" PATH="$work/with-wide:$PATH" checkout/esdk wide
    ended "a wide program without a folder named" 0
    want "it is built among the user's caches" [ -x caches/esdk/wide/crates/esdk_tool/out/esdk_tool ]
    : >checkout/crates/low/src/added.rt
    : >no-folder
    run env CPUINFO="$work/cpu-v3" ESDK_WIDE_FOLDER="$work/no-folder" PATH="$work/with-wide:$PATH" checkout/esdk wide
    ended "a wide program whose folder can't be made" 70
    sed -i 's/    false/    false \&\& true/' checkout/crates/plane_width/src/lib.rt
    wide_esdk v3 wide
    ended "a wide program of a line that isn't what it was" 70
    rm checkout/crates/low/src/added.rt
    cp "$top/crates/plane_width/src/lib.rt" checkout/crates/plane_width/src
}

# A folder with tests/wide, in which the programs, the outside and another processor are stand-ins.
make_wide_trial() {
    mkdir -p trial/tests trial/bin
    cp "$top/tests/wide" trial/tests
    printf '#!/bin/sh\necho "over $ESDK"\nexit "$(cat "%s/outside-ends")"\n' "$work" >trial/tests/outside
    printf '#!/bin/sh\necho "this machine lacks a feature of x86-64-v3, and more" >&2\nexit "$(cat "%s/processor-ends")"\n' "$work" >trial/bin/qemu-x86_64
    printf '#!/bin/sh\n' >trial/program
    chmod +x trial/tests/outside trial/bin/qemu-x86_64 trial/program
    for crate in cipher_cases codec_cases run_cases; do
        mkdir -p "trial/crates/$crate"
        echo "cases" >"trial/crates/$crate/stdin"
        echo "cases" >"trial/crates/$crate/stdout"
        cp "$(command -v cat)" "trial/program.$crate"
    done
    echo 0 >outside-ends
    echo 127 >processor-ends
}

try_wide() { run env ESDK="$work/another" ESDK_WIDE="$work/trial/program" PATH="$work/trial/bin:$PATH" trial/tests/wide; }

# What tests/wide finds: a case that ends otherwise, a program of cases that is missing, the outside, another processor.
wide_trials() {
    make_wide_trial
    try_wide
    ended "tests/wide where all is right" 0
    want "tests/wide tries that program" grep -qx "over $work/trial/program" output
    want "tests/wide finds nothing wrong" sh -c '! grep -q WRONG output'
    echo "other cases" >trial/crates/run_cases/stdout
    try_wide
    ended "tests/wide where a case ends otherwise" 1
    want "tests/wide says which" grep -q '^run_cases: .* WRONG$' output
    echo "cases" >trial/crates/run_cases/stdout
    mv trial/program.codec_cases trial/away
    try_wide
    ended "tests/wide without a program of cases" 1
    mv trial/away trial/program.codec_cases
    for found in outside processor; do
        cp "$found-ends" was
        echo 3 >"$found-ends"
        try_wide
        ended "tests/wide where it finds something: $found" 1
        cp was "$found-ends"
    done
    rm trial/program
    try_wide
    ended "tests/wide without a program" 2
}

wide() {
    make_wide_builder
    make_processors
    mkdir -p wide-home/bin
    kinds
    wide_faults
    wide_builds
    wide_folder
    wide_trials
}
