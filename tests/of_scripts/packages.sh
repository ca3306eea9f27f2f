# What ./esdk package makes. tests/scripts reads it.
# shellcheck shell=sh disable=SC2016,SC2154 # texts for other shells; names of tests/scripts

# The links of the pages below a folder, each with the page's name before it: links FOLDER
links() {
    find "$1" -name '*.md' | while read -r page; do
        grep -o '](\([^)]*\))' "$page" | sed -e 's/^](//' -e 's/)$//' -e 's/#.*//' -e '/:/d' -e '/^$/d' -e "s|^|${page%/*}/|"
    done
}

# Each link of the pages leads to a file, and each name that stands in a link's place is one of the sources: package_pages FOLDER
package_pages() {
    links "$1" | sort -u >linked
    want "$1: there are links" [ "$(wc -l <linked)" -gt 15 ]
    want "$1: links that lead nowhere" [ -z "$(while read -r file; do [ -e "$file" ] || echo "$file"; done <linked)" ]
    grep -rhoE '`[^`]+` of the sources' "$1/share/doc/esdk" | cut -d '`' -f 2 | sort -u >named
    want "$1: names that stand in a link's place" grep -qx CONTRIBUTING.md named
    want "$1: names of the sources that they don't have" [ -z "$(while read -r file; do [ -e "$top/$file" ] || echo "$file"; done <named)" ]
}

# Links where the packages are put are replaced, and not followed.
package_over_links() {
    mkdir three
    echo "not to be written" >victim
    for name in .esdk.SHA256SUMS SHA256SUMS "$archive.tar.gz" ".esdk.$archive.tar.gz"; do
        ln -s ../victim "three/$name"
    done
    SOURCE_DATE_EPOCH=1700000000 run checkout/esdk package three
    ended "package over links" 0
    want "package follows no link" holds victim "not to be written"
    want "package replaces them" cmp one/SHA256SUMS three/SHA256SUMS
    want "package leaves nothing" [ -z "$(find three -name '.esdk.??????')" ]
}

# A stand-in of what tools/library makes: its packages hold the bytes that are there, whatever they are.
make_library() {
    mkdir library
    cp "$top/include/esdk.h" library
    echo 'an archive' >library/libesdk.a
    echo 'a shared library of GLIBC_2.4 and GLIBC_2.25' >library/libesdk.so.1
    printf '%s\n' 'libdir=${pcfiledir}' 'includedir=${pcfiledir}' >library/libesdk.pc
}

# The library's packages hold it. tests/library installs those of a real one.
package_library() {
    for name in libesdk1 libesdk-dev; do
        dpkg-deb -x "one/${name}_${version}_amd64.deb" "two/$name"
        want "all of $name is root's" sh -c 'dpkg-deb -c "$1" | awk "\$2 != \"root/root\" { exit 1 }"' sh "one/${name}_${version}_amd64.deb"
        want "$name has its papers" [ -f "two/$name/usr/share/doc/$name/copyright" ]
    done
    want "libesdk1 has the library" cmp library/libesdk.so.1 two/libesdk1/usr/lib/x86_64-linux-gnu/libesdk.so.1
    want "libesdk1 wants the C library that this one names" [ "$(dpkg-deb -f "one/libesdk1_${version}_amd64.deb" Depends)" = 'libc6 (>= 2.25)' ]
    want "libesdk-dev has the archive" cmp library/libesdk.a two/libesdk-dev/usr/lib/x86_64-linux-gnu/libesdk.a
    want "libesdk-dev has the header" cmp library/esdk.h two/libesdk-dev/usr/include/esdk.h
    want "libesdk-dev wants the library of its version" sh -c 'dpkg-deb -f "$1" Depends | grep -q "^libesdk1 (= $2),"' sh "one/libesdk-dev_${version}_amd64.deb" "$version"
    want "libesdk-dev's pages: links that lead nowhere" [ -z "$(links two/libesdk-dev/usr/share/doc | while read -r file; do [ -e "$file" ] || echo "$file"; done)" ]
    rm library/libesdk.a
    run checkout/esdk package four
    ended "package with a library that lacks a file" 70
    want "it makes nothing then" [ -z "$(ls four)" ]
    run env -u ESDK_LIBRARY PATH="$work/no-rt" checkout/esdk package four
    ended "package without a library" 0
    want "package without a library says so" grep -q '^esdk: left out the packages of the library' report
    want "package without a library makes the program's alone" [ "$(cd four && echo ./*)" = "./SHA256SUMS ./$archive.tar.gz ./esdk_${version}_amd64.deb" ]
}

# A package of a program alone says why the other is left out; so it does where that one is of other sources.
package_of_one() {
    rm -f checkout/crates/esdk_tool/out/esdk_tool_wide*
    mkdir six
    run checkout/esdk package six
    ended "package of one program" 0
    want "package of one program says so" grep -q '^esdk: left out the program for processors of x86-64-v3: ' report
    want "the archive's command is that program" cmp checkout/crates/esdk_tool/out/esdk_tool "two/$archive/bin/esdk"
    want "there is nothing to choose" [ ! -e "two/$archive/lib" ]
    : >checkout/crates/low/src/added.rt
    wide_esdk v3 wide
    rm checkout/crates/low/src/added.rt
    run checkout/esdk package six
    ended "package beside a wide program of other sources" 0
    want "it is left out" grep -q '^esdk: left out the program for processors of x86-64-v3: ' report
}

# The command of a folder with both is the program for this kind: command_is WHAT FOLDER KIND
command_is() {
    case $3 in
        x86-64-v2) want "$1: the program for x86-64-v2" cmp checkout/crates/esdk_tool/out/esdk_tool "$2/bin/esdk" ;;
        *) want "$1: the program for x86-64-v3" [ "$("$2/bin/esdk")" = "the wide one of esdk_tool" ] ;;
    esac
    want "$1: nothing is left beside it" [ -z "$(find "$2/bin" -name '.esdk*')" ]
}

# Turns the link as on such a processor: choose FOLDER CPU WORD..
choose() {
    chosen=$1/lib/esdk/choose
    cpu=$2
    shift 2
    run env CPUINFO="$work/cpu-$cpu" "$chosen" "$@"
}

# What `choose` makes of the command in a folder with both: choices FOLDER
choices() {
    command_is "as it is unpacked" "$1" x86-64-v2
    choose "$1" v3
    ended "choose on a processor of x86-64-v3" 0
    want "choose says which it is" holds report 'esdk: the command is the program for x86-64-v3'
    command_is "choose on a processor of x86-64-v3" "$1" x86-64-v3
    choose "$1" v2
    command_is "choose on another" "$1" x86-64-v2
    choose "$1" v2 x86-64-v3
    command_is "choose of the other by name" "$1" x86-64-v3
    choose "$1" missing
    command_is "choose where nothing is said of the processor" "$1" x86-64-v2
    choose "$1" v3 x86-64-v4
    ended "choose of what there isn't" 2
    rm "$1/bin/esdk"
    echo "somebody's own" >"$1/bin/esdk"
    choose "$1" v3
    ended "choose where the command isn't a link" 70
    want "choose replaces no file" holds "$1/bin/esdk" "somebody's own"
    ln -sf "somebody's own" "$1/bin/esdk"
    choose "$1" v3
    ended "choose where the command is somebody's link" 70
    want "choose replaces no such link" [ "$(readlink "$1/bin/esdk")" = "somebody's own" ]
}

# What dpkg runs once the files are there, on such a processor: configured CPU WORD..
configured() {
    sed "s,/usr/lib/,$work/two/both/usr/lib/," two/control/postinst >configure
    cpu=$1
    shift
    run env CPUINFO="$work/cpu-$cpu" "$@" sh configure configure 1
    ended "dpkg's configuring" 0
}

# Packages of both programs, where both are of these sources.
package_of_both() {
    mkdir five eight
    wide_esdk v3 wide
    SOURCE_DATE_EPOCH=1700000000 run checkout/esdk package five
    ended "package of both programs" 0
    want "package of both leaves out none" sh -c '! grep -q "left out the program" report'
    SOURCE_DATE_EPOCH=1700000000 run checkout/esdk package eight
    want "two packages of both are the same bytes" diff -r five eight
    rm -r "two/$archive"
    tar -C two -xzf "five/$archive.tar.gz"
    run sh -c 'cd "$1" && sha256sum -c SHA256SUMS' sh "two/$archive"
    ended "the checksums in the archive of both" 0
    choices "two/$archive"
    dpkg-deb -x "five/esdk_${version}_amd64.deb" two/both
    dpkg-deb -e "five/esdk_${version}_amd64.deb" two/control
    configured v3
    command_is "configured on a processor of x86-64-v3" two/both/usr x86-64-v3
    configured v2
    command_is "configured on another" two/both/usr x86-64-v2
    configured v3 DPKG_ROOT=/elsewhere
    command_is "configured for another machine's folder" two/both/usr x86-64-v2
    rm two/both/usr/bin/esdk
    configured v3
    want "configured without a link: there is none then" [ ! -e two/both/usr/bin/esdk ]
    dpkg-deb -e "one/esdk_${version}_amd64.deb" two/control.of.one
    want "a package of one program configures nothing" [ ! -e two/control.of.one/postinst ]
}

# Every command of this machine but rt.
without_rt() {
    mkdir no-rt
    echo "$PATH" | tr : '\n' | while read -r folder; do
        cp -sn "$folder"/* no-rt/ 2>/dev/null || true
    done
    rm -f no-rt/rt
}

packages() {
    command -v dpkg-deb >/dev/null || { echo "packages: not tried, since there is no dpkg-deb"; return 0; }
    version=$(cat "$top/VERSION")
    archive=esdk-$version-x86_64-linux
    mkdir one two four
    rm -f checkout/crates/esdk_tool/out/esdk_tool_wide*
    make_library
    export ESDK_LIBRARY="$work/library"
    SOURCE_DATE_EPOCH=1700000000 run checkout/esdk package one
    ended "package" 0
    touch checkout/docs/* checkout/share/*
    SOURCE_DATE_EPOCH=1700000000 run sh -c 'umask 077; sleep 1; exec checkout/esdk package two'
    want "two packages are the same bytes" diff -r one two
    want "five files are made" [ "$(find one -type f | wc -l)" -eq 5 ]
    run sh -c 'cd one && sha256sum -c SHA256SUMS'
    ended "the packages' checksums" 0
    tar -C two -xzf "one/$archive.tar.gz"
    run sh -c 'cd "$1" && sha256sum -c SHA256SUMS' sh "two/$archive"
    ended "the checksums in the archive" 0
    want "the archive's program runs" "two/$archive/bin/esdk" encrypt --keyring=key </dev/null
    for file in bin/esdk-tree share/man/man1/esdk-into.1 share/bash-completion/completions/esdk share/doc/esdk/LICENSE share/doc/esdk/SECURITY.md share/doc/esdk/docs/FORMAT.md; do
        want "the archive has $file" [ -f "two/$archive/$file" ]
    done
    dpkg-deb -x "one/esdk_${version}_amd64.deb" two/debian
    for file in bin/esdk share/man/man1/esdk.1.gz share/doc/esdk/copyright share/doc/esdk/SECURITY.md share/doc/esdk/changelog.gz; do
        want "the Debian package has $file" [ -f "two/debian/usr/$file" ]
    done
    for name in $scripts; do
        want "the Debian package has $name, as a program" [ -x "two/debian/usr/bin/$name" ]
        want "the Debian package has $name's man page" [ -f "two/debian/usr/share/man/man1/$name.1.gz" ]
    done
    package_pages "two/$archive"
    package_pages two/debian/usr
    want "a man page of the Debian package names a page by its full path" sh -c 'zcat "$1" | grep -q /usr/share/doc/esdk/docs/LINES.md' sh two/debian/usr/share/man/man1/esdk.1.gz
    zcat two/debian/usr/share/man/man1/*.gz | grep -o '/usr/share/doc/esdk/[A-Za-z/]*\.md' | sort -u >named
    want "each page that its man pages name is there" [ -z "$(while read -r file; do [ -f "two/debian$file" ] || echo "$file"; done <named)" ]
    want "all of it is root's" sh -c 'dpkg-deb -c "$1" | awk "\$2 != \"root/root\" { exit 1 }"' sh "one/esdk_${version}_amd64.deb"
    package_over_links
    package_of_one
    package_of_both
    without_rt
    package_library
    unset ESDK_LIBRARY
    rm checkout/LICENSE
    run env PATH="$work/no-rt" checkout/esdk package one
    ended "package without a licence" 70
}
