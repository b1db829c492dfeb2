# Checks of what people need who only use the program: .ci/own reads this, with its `check`, its folder and its status. $ICE2 is the program
# where it is not bin/ice2.

# suite CHECK: a check of ice2-suite.
suite() {
    mkdir -p "$work/suite.$1" && python3 .ci/suite.py "$1" "$work/suite.$1"
}

# Another compiler may make other code of the sources.
compiles_suite() {
    for image in examples/suite/*.hex; do
        base=$(basename "$image" .hex)
        source=examples/suite/$base.c part=atmega16
        [ "$base" != stack32 ] || source=examples/suite/stack.c part=atmega32
        avr-gcc "-mmcu=$part" -Os -std=c99 -Wall -Wextra -o "$work/$base.elf" "$source" &&
            avr-objcopy -O ihex "$work/$base.elf" "$work/$base.hex" && cmp "$image" "$work/$base.hex" >&2 || return 1
    done
}

# The checker of manual pages has nothing to say.
reads_manual() {
    said=$(mandoc -Tlint man/*.1 2>&1)
    [ -z "$said" ] || { echo "$said" >&2; return 1; }
}

runs_manual() {
    mkdir -p "$work/manual" && python3 .ci/manual.py "$work/manual"
}

# The program, in a folder with nothing else but the libraries that it names; where this may not be, in an empty folder with no words of
# the caller's.
runs_alone() {
    alone=$work/alone
    mkdir -p "$alone/empty" && cp "$1" "$alone/ice2" || return 1
    if [ "$(id -u)" = 0 ] && chroot / true 2>/dev/null; then
        for library in $(ldd "$1" | grep -o '/[^ ]*'); do
            install -D "$library" "$alone$library" || return 1
        done
        chroot "$alone" /ice2 --version
    else
        (cd "$alone/empty" && env -i "$alone/ice2" --version)
    fi
}

# The package is made, has what it should, and its program runs without the repository. The libraries that it names are those of the C
# library's packages alone.
packs() {
    bin/make-package "$work/package" >&2 && dpkg-deb -x "$work"/package/*.deb "$work/package/root" || return 1
    usr=$work/package/root/usr
    for file in bin/ice2-suite share/man/man1/ice2.1.gz share/man/man1/ice2-suite.1.gz share/bash-completion/completions/ice2 \
        share/doc/ice2/README.md share/doc/ice2/docs/SUITES.md share/doc/ice2/examples/suite/bug.hex; do
        [ -s "$usr/$file" ] || { echo "no $file" >&2; return 1; }
    done
    grep -qE '^logic=proved |^The text of the build was not kept' "$usr/share/doc/ice2/PROVED" || return 1
    if ldd "$usr/bin/ice2" | grep -Ev '/ld-linux|lib(c|m|gcc_s)\.so|linux-vdso' >&2; then
        return 1
    fi
    [ "$(runs_alone "$usr/bin/ice2")" = "$(bin/ice2 --version)" ]
}

# dpkg installs the package that is there, below a folder of its own; one who has these files alone has the image and the session of the
# tutorial; and it removes them all.
installs() {
    root=$work/installed doc=$root/usr/share/doc/ice2 reader=$work/reader
    mkdir -p "$root/var/lib/dpkg/updates" "$root/var/lib/dpkg/info" "$reader/.ci" && : >"$root/var/lib/dpkg/status" || return 1
    # The C library is not in the folder.
    dpkg --root="$root" --force-depends -i "$work"/package/*.deb >"$work/dpkg" 2>&1 || { cat "$work/dpkg" >&2; return 1; }
    cp .ci/tutorial.py "$reader/.ci" && ln -s "$doc/docs" "$doc/examples" "$reader" && python3 "$reader/.ci/tutorial.py" || return 1
    "$root/usr/bin/ice2" asm <"$doc/examples/first.asm" | cmp - "$doc/examples/first.bin" >&2 || return 1
    "$root/usr/bin/ice2" script "$doc/examples/clock.bin" 20000 <"$doc/examples/clock.script" 2>"$work/notes" |
        cmp - "$doc/examples/clock.transcript" >&2 || return 1
    dpkg --root="$root" -r ice2 >"$work/dpkg" 2>&1 && [ ! -e "$root/usr" ]
}

# needs NAME TOOL.. : COMMAND..: the check, where the tools are there.
needs() {
    name=$1
    shift
    while [ "$1" != : ]; do
        if ! command -v "$1" >/dev/null; then
            echo "skipped: $name"
            return
        fi
        shift
    done
    shift
    check "$name" "$@"
}

needs 'suite of the examples' python3 parallel : suite examples
needs 'failed and accepted cases' python3 parallel : suite failures
needs 'cases that want a script cut off' python3 parallel : suite cut_off
needs '200 cases on one and on four workers' python3 parallel : suite workers
needs 'manual pages' mandoc : reads_manual
needs 'examples of the manual pages' python3 parallel : runs_manual
needs 'completion' bash : .ci/complete.sh
# The package has the files that git keeps, and their commit.
if git log -1 >/dev/null 2>&1; then
    needs 'package' dpkg-deb dpkg install ldd : packs
    if [ "$(id -u)" = 0 ] && [ -d "$work/package" ]; then
        needs 'package installed' dpkg python3 : installs
    else
        echo 'skipped: package installed'
    fi
else
    echo 'skipped: package'
    echo 'skipped: package installed'
fi
if [ "$(avr-gcc -dumpversion 2>/dev/null)" = 5.4.0 ]; then
    check 'images of the suite compiled anew' compiles_suite
else
    echo 'skipped: images of the suite compiled anew'
fi
