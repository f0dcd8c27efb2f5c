# What tools/archive, tools/program and install share, read with '.': a thing that rt builds is built again only where something that it is made of has changed.
# The script that reads it sets `root`, the repository, and `name`, by which messages begin. A line for each crate that is proved goes to standard error.

say() { echo "$name: $*" >&2; }
die() { say "$*"; exit 2; }

# The crates below a crate and the crate itself, by the list of crates.
below() {
    awk -v want="$1" '
        { sub(/#.*/, ""); at = index($0, ":"); if (!at) next; split(substr($0, 1, at - 1), words, " "); needs[words[1]] = substr($0, at + 1) }
        function visit(crate,    words, i, n) {
            if (!(crate in needs) || crate in seen) return
            seen[crate] = 1
            print crate
            n = split(needs[crate], words, " ")
            for (i = 1; i <= n; i++) visit(words[i])
        }
        END { visit(want) }' "$root/crates.txt"
}

# The sum of all that a crate is made from: its files and those of the crates below, what they need, and the toolchain.
sources_of() {
    (
        cd "$root"
        rt version </dev/null
        for crate in $(below "$1" | sort); do
            grep "^$crate[ :]" crates.txt
            (cd "crates/$crate" && find src specs proofs -type f -exec sha256sum {} + 2>/dev/null | sort)
        done
    ) | sha256sum | cut -d' ' -f1
}

sum_of() { sha256sum <"$1" | cut -d' ' -f1; }

# Whether what stands at FOLDER/FILE was built from the sources as they are.
is_fresh() { # FOLDER FILE
    [ -r "$1/$2" ] && [ "$(cat "$1/$2.from" 2>/dev/null)" = "$sources $(sum_of "$1/$2")" ]
}

# Shows a line for each crate that rt tells is proved, as they come.
shown() {
    while IFS= read -r line; do
        case $line in
        'crate '*': modules '*) proved=${line#crate } proved=${proved%%:*} ;;
        'logic=proved '*) printf '%s: %s proved\n' "$name" "$proved" >&2 ;;
        esac
    done
}

# Whether rt can write beside the sources of a crate and of those below it.
can_write() { # CRATE
    for each in $(below "$1"); do
        folder=$root/crates/$each
        [ -w "$folder/out" ] || { [ ! -e "$folder/out" ] && [ -w "$folder" ]; } || return 1
    done
}

# Copies the sources to `place`. What was proved and built there stays.
copy_sources() {
    mkdir -p "$place/crates" && cp "$root/crates.txt" "$place/" || return 1
    for folder in "$root"/crates/*; do
        copy=$place/crates/${folder##*/}
        mkdir -p "$copy" || return 1
        for part in src specs proofs; do
            rm -rf "${copy:?}/$part" || return 1
            [ ! -d "$folder/$part" ] || { cp -R "$folder/$part" "$copy/" && chmod -R u+w "$copy/$part"; } || return 1
        done
    done
}

# Where rt can write: the repository, or a copy of its sources in the user's cache.
place_to_write() { # CRATE FILE
    ! can_write "$1" || return 0
    cache=${XDG_CACHE_HOME:-${HOME:+$HOME/.cache}}
    [ -n "$cache" ] || die "$root cannot be written, and neither XDG_CACHE_HOME nor HOME names a folder to build in"
    place=$cache/khamdoriem
    ! is_fresh "$place" "$2" || return 0
    say "$root cannot be written: building from a copy in $place"
    copy_sources || die "$place cannot be written"
}

# Builds by 'rt WORDS' in the folder of CRATE what then stands at FILE below the folder `place`. Where that is there already, nothing is run or said.
build() { # CRATE FILE WORDS..
    [ "$(uname -m)" = x86_64 ] || die "this machine is no x86-64, on which alone the Rattle toolchain runs. What an x86-64 machine built runs here under Debian's \
emulator: './install --prefix DIR --no-build' installs it, and KHAMDORIEM_ARCHIVE (or --archive of harness/run and bench/run) names its archive"
    command -v rt >/dev/null 2>&1 || die "no 'rt' on the PATH: the Rattle toolchain is needed to prove and build"
    crate=$1 file=$2
    shift 2
    sources=$(sources_of "$crate")
    place=$root
    ! is_fresh "$place" "$file" || return 0
    place_to_write "$crate" "$file"
    ! is_fresh "$place" "$file" || return 0
    say "building $file; what is not proved yet is proved first (from nothing that takes some minutes), with a line for each crate"
    log=$place/crates/$crate/out/build.log
    mkdir -p "$place/crates/$crate/out"
    status=$({ { cd "$place/crates/$crate" && rt "$@" </dev/null 2>&1; echo $? >&3; } | tee "$log" | shown; } 3>&1)
    if [ "$status" != 0 ] || ! [ -f "$place/$file" ]; then
        grep -E '^rt: |error|: not proved|: no proof' "$log" | grep -v -E '^rt: (chose|.*: begins with) ' | head -5 | cut -c1-400 >&2 || :
        say "'rt $1' failed; $log has all that it said"
        exit 1
    fi
    echo "$sources $(sum_of "$place/$file")" >"$place/$file.from"
}

# A program, which then stands at `program`. (rt builds a program where it is to run one.)
build_program() { # CRATE
    program=crates/$1/out/$1
    build "$1" "$program" run -- --version
    program=$place/$program
}

# The archive, which then stands at `archive`.
build_archive() {
    archive=crates/khamdoriem/out/libkhamdoriem.a
    build khamdoriem "$archive" lib
    archive=$place/$archive
}
