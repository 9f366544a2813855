# shellcheck shell=bash
# The program of this checkout: what it is made of, the one that was built here, and the released one. To be
# sourced; each message begins with the name in `speaker`. No file's time counts: git and editors change times
# where no byte has changed.
top=$(dirname "$(dirname "$(readlink -f "${BASH_SOURCE[0]}")")")
# Paths below the top, as messages have them.
program=crates/wgr_prog/out/wgr_prog
unpacked=crates/wgr_prog/out/released/wgr
release=dist/release/RELEASE
packed=dist/release/wgr-linux-x86_64.xz
advice='run tools/release VERSION and commit dist/release'

say() { echo "$speaker: $*" >&2; }

find_rt() { command -v rt || echo /opt/rattle/bin/rt; }

sha256_of() {
    local line
    line=$(sha256sum <"$1") && echo "${line%% *}"
}

# Reads crates.txt into the associative array `named`: the names behind the colon of each crate.
read_crates() {
    local line name
    while read -r line || [[ -n $line ]]; do
        name=${line%%[: ]*} line=${line#*:}
        [[ -z $name ]] || named[$name]=${line//,/ }
    done < <(sed 's/#.*//' "$top/crates.txt")
}

# The crates of this repository that the program is made of, one a line, each after all that it names.
program_crates() {
    local -A named=() listed=()
    read_crates
    list_crates wgr_prog
}

list_crates() {
    local name
    for name; do
        [[ -d $top/crates/$name && -z ${listed[$name]:-} ]] || continue
        listed[$name]=yes
        # shellcheck disable=SC2086
        list_crates ${named[$name]:-}
        echo "$name"
    done
}

# The files that the program is made of, each path ended by a zero byte. What a build or an editor leaves
# beside them is no part of it.
list_sources() {
    local crates
    mapfile -t crates < <(program_crates)
    printf 'crates.txt\0'
    find "${crates[@]/#/crates/}" -regex 'crates/[^/]*/out' -prune -o -name '.*' -prune -o \
        -type f \( -name '*.rt' -o -name '*.antt' \) -print0
}

# The SHA-256 of the lines that sha256sum prints of these files, in the order of the bytes of their paths.
sources_digest() (
    set -o pipefail
    cd "$top" && list_sources | LC_ALL=C sort -z | xargs -0 sha256sum | sha256_of /dev/stdin
)

# Whether the program that is built here is of the sources with this digest. `rt run` and `rt ci` put programs
# at the same place, so its own SHA-256 counts too.
is_built() {
    [[ -x $top/$program && -f $top/$program.built ]] &&
        [[ $(<"$top/$program.built") == "$(built_note "$1")" ]]
}

built_note() { printf 'sources %s\nprogram %s\n' "$1" "$(sha256_of "$top/$program")"; }

# Notes that the program was built of the sources with this digest, which was taken before the build.
note_built() {
    if [[ $(sources_digest) != "$1" ]]; then
        say 'a source was changed during the build, so the program is of none: build again'
        return 1
    fi
    built_note "$1" >"$top/$program.built"
}

# released_field NAME: what RELEASE says behind this name.
released_field() {
    local value
    if [[ ! -f $top/$release ]]; then
        say "$release is missing"
        return 1
    fi
    value=$(sed -n "s/^$1 //p" "$top/$release")
    if [[ -z $value ]]; then
        say "$release has no line '$1'"
        return 1
    fi
    echo "$value"
}

# Unpacks the released program where that was not done before, and prints its path. Where it can't, it says
# why; the status is 1 if the release is at fault, and 2 if this machine is.
unpack_release() {
    local wanted
    wanted=$(released_field program) || return 1
    if [[ ! -x $top/$unpacked || $(sha256_of "$top/$unpacked") != "$wanted" ]]; then
        unpack_anew "$wanted" || return
    fi
    echo "$top/$unpacked"
}

# The file gets its name when it is whole and tested, so that no other run meets half of it.
unpack_anew() (
    if [[ ! -f $top/$packed ]]; then
        say "$packed is missing"
        return 1
    fi
    if ! command -v xz >/dev/null; then
        say "xz is needed to unpack the released program: install Debian's package xz-utils, or run ./build"
        return 2
    fi
    # Other users may run it too.
    umask 022
    mkdir -p "$(dirname "$top/$unpacked")" && fresh=$(mktemp "$top/$unpacked.XXXXXX") || return 2
    trap 'rm -f "$fresh"' EXIT
    if ! why=$(xz -dc <"$top/$packed" 2>&1 >"$fresh"); then
        say "$packed can't be unpacked: $why"
        # Where the archive itself is whole, there is no room for the program here, and a build has none either.
        ! xz -t <"$top/$packed" 2>/dev/null || return 2
        return 1
    fi
    if [[ $(sha256_of "$fresh") != "$1" ]]; then
        say "$packed isn't the program of $release: its sha256 is another"
        return 1
    fi
    chmod 755 "$fresh" && mv -f "$fresh" "$top/$unpacked" || return 2
)

# Prints the path of the program that ./wgr runs: the one built of these sources, else the one released of
# them. Where neither can be had, it says why; the status is 1 if a build makes one, and 2 if this machine
# lacks something.
find_program() {
    local sources released
    sources=$(sources_digest) || return 2
    if is_built "$sources"; then
        echo "$top/$program"
        return
    fi
    released=$(released_field sources) || return 1
    if [[ $released != "$sources" ]]; then
        say "the sources were changed since release $(released_field version)"
        return 1
    fi
    unpack_release
}

# For the gate: whether the release is of these sources, and of a toolchain with the logic that proves them.
is_release_current() {
    if [[ $(released_field sources) != "$(sources_digest)" ]]; then
        say "$release isn't of these sources: $advice"
        return 1
    fi
    if [[ $(logic_of "$(released_field toolchain)") != "$(logic_of "$("$(find_rt)" version)")" ]]; then
        say "$release isn't of this toolchain: $advice"
        return 1
    fi
}

# What follows the kit's name in a line of `rt version`.
logic_of() { echo "${1#* }"; }

# For the gate: whether the program that it built is the released one, byte for byte. Another kit's compiler may
# make other bytes of the same sources, so only the kit of the release can tell.
is_release_built() {
    local released built_by
    built_by=$(released_field toolchain) || return 1
    if [[ -f $top/$program && $built_by != "$("$(find_rt)" version)" ]]; then
        say "the release was built by $built_by, and this is another kit: the bytes aren't compared"
        echo '0 passed, 0 failed, 1 skipped'
        return
    fi
    released=$(unpack_release) && cmp "$released" "$top/$program" && return
    say "the program that was built isn't the released one: $advice"
    return 1
}
