# build_bench TOP WORK NAME MAIN CRATES: builds the program NAME from bench/MAIN over copies of the repository's crates.
# Its source has another ending than the crates', so that the gate leaves it alone.
build_bench() {
    local top=$1 work=$2 name=$3 main=$4 crates=$5
    mkdir -p "$work/crates/$name/src"
    cp -R "$top/crates/." "$work/crates/"
    cp "$top/bench/programs/$main" "$work/crates/$name/src/main.rt"
    { cat "$top/crates.txt"; echo "$name: $crates"; } > "$work/crates.txt"
    (cd "$work/crates/$name" && rt run) > "$work/build.log" 2>&1 || { tail -20 "$work/build.log"; return 1; }
}
