# Bugs that are planted into a copy of the library, and the suites that find them: what tests/c/dropin does with --plants. It is read there.

# plant FILE: builds a copy of the library with the bug of this file, in $room/plant.
plant() {
    rm -rf "$room/plant"
    mkdir -p "$room/plant"
    file=$(sed -n 's/^file: //p' "$1")
    python3 "$here/plant.py" "$1" "$top/compat/$file" > "$room/plant/$file" || return 1
    $cc -std=c11 -D_DEFAULT_SOURCE -O2 -march=x86-64 -fPIC -fvisibility=hidden -I"$top/include" -I"$top/compat" -I"$headers" \
        -c -o "$room/plant/bug.o" "$room/plant/$file" || return 1
    objects=$(ls "$build"/dropin/*.o "$build/$cpu/renamed.o" ${avx2:+"$build/x86-64-v3/renamed.o"} | grep -v "/${file%.c}.o$")
    $cc -shared -Wl,-soname,"$soname" -Wl,--version-script="$top/packaging/dropin.map" -o "$room/plant/$soname" "$room/plant/bug.o" $objects
}

# finds: tells in $room/found which suite fails over the planted bug; fails if none does.
finds() {
    planted=$room/plant/$soname
    "$room/jobs" "$theirs" "$planted" 4000 || { echo 'drawn jobs differ' > "$room/found"; return; }
    "$room/arrays" "$theirs" "$planted" 10000 || { echo 'bursts of an array differ' > "$room/found"; return; }
    "$room/segments" "$theirs" "$planted" 100 || { echo 'lists of segments differ' > "$room/found"; return; }
    "$room/direct" "$theirs" "$planted" 100 || { echo 'direct calls differ' > "$room/found"; return; }
    "$room/gmac" "$theirs" "$planted" || { echo 'contexts of GMAC differ' > "$room/found"; return; }
    "$room/faults" "$theirs" "$planted" || { echo 'wrong jobs differ' > "$room/found"; return; }
    "$room/setup" "$theirs" "$planted" || { echo 'setting up differs' > "$room/found"; return; }
    "$room/added" "$theirs" "$planted" || { echo 'added calls differ' > "$room/found"; return; }
    "$room/quic" "$theirs" "$planted" || { echo 'packets of QUIC differ' > "$room/found"; return; }
    "$room/strides" "$theirs" "$planted" untimed || { echo 'sessions differ' > "$room/found"; return; }
    LD_LIBRARY_PATH=$room/plant "$room/memory" || { echo 'memory fails' > "$room/found"; return; }
    LD_LIBRARY_PATH=$room/plant "$room/keys" || { echo 'keys stay' > "$room/found"; return; }
    return 1
}

is_sound() {
    ! finds
}

plants() {
    [ -n "$theirs" ] || { echo "no $soname of Intel's is installed: it is compared"; exit 2; }
    for source in jobs arrays segments direct gmac faults setup added quic strides; do
        check "$source is compiled" program $source '' "$here/$source.c" $shared_sources
    done
    for source in memory keys; do
        check "$source is linked" program $source -pthread "$here/$source.c" "$dropin"
    done
    mkdir -p "$room/plant" && cp "$dropin" "$room/plant/"
    check 'no suite fails over the library as it is' is_sound
    for bug in "$here"/plants/*.edit; do
        grep -q "^file: version_" "$bug" && ! grep -q "^file: version_$abi" "$bug" && continue
        check "a library with $(basename "$bug" .edit) is built" plant "$bug"
        check 'a suite fails over it' finds
        echo "     $(cat "$room/found")"
    done
    exit 0
}
