# Builds the programs of bench/ that are Rattle: bench/NAME/main.rs. To be sourced after tools/program.bash.

made=$top/bench/out

# The repository's crates among these, and all below them, a line each.
crates_below() {
    local crate
    for crate; do
        [[ ! -d $top/crates/$crate ]] || echo "$crate"
        crates_below $(sed -n "s/^$crate: *//p" "$top/crates.txt")
    done | sort -u
}

# lay_out ROOM NAME LIBRARIES: the program's crate, in a folder of its own with copies of the crates that it uses.
# No file of it may end in .rt in the repository, where the gate refuses what crates.txt doesn't name, and rt takes
# neither links nor crates outside of its folder. The libraries that are built already come along.
lay_out() {
    local crate room=$1 name=$2
    for crate in $(crates_below "${@:3}"); do
        mkdir -p "$room/crates/$crate/out"
        cp -a "$top/crates/$crate"/{src,specs,proofs} "$room/crates/$crate/"
        # Without it the crate is proved from nothing.
        [[ ! -d $top/crates/$crate/out/rlib ]] || cp -a "$top/crates/$crate/out/rlib" "$room/crates/$crate/out/"
    done
    grep -E "^($(crates_below "${@:3}" | paste -sd '|')):" "$top/crates.txt" >"$room/crates.txt"
    mkdir -p "$room/crates/wgr_bench/src"
    cp "$top/bench/$name/main.rs" "$room/crates/wgr_bench/src/main.rt"
    echo "wgr_bench: ${*:3}" >>"$room/crates.txt"
}

# make_program NAME LIBRARIES: bench/out/NAME, where it isn't of these sources. rt builds only what is proved, so this
# takes a minute or more. (`rt try` takes less, but checks each access and optimises nothing.) rt also runs what it
# has built: without words it fails, which doesn't matter.
make_program() (
    name=$1
    sources="$(sources_digest) $(sha256_of "$top/bench/$name/main.rs")"
    mkdir -p "$made"
    [[ ! -x $made/$name || ! -f $made/$name.sources || $(<"$made/$name.sources") != "$sources" ]] || return 0
    echo "bench: proving and building the program of bench/$name" >&2
    rt=$(find_rt)
    room=$(mktemp -d)
    trap 'rm -rf "$room"' EXIT
    lay_out "$room" "$@"
    cd "$room/crates/wgr_bench"
    "$rt" run >"$room/log" 2>&1 || true
    if [[ ! -x out/wgr_bench ]]; then
        tail -n 20 "$room/log" >&2
        exit 1
    fi
    cp out/wgr_bench "$made/$name"
    echo "$sources" >"$made/$name.sources"
)
