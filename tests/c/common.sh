# What the scripts beside it share. They set `top` first, and read BUILD, the folder that `make` builds into, CPU, for which the library in
# its main folder was built, and CC.
build=${BUILD:-$top/build}
cpu=${CPU:-x86-64-v2}
cc=${CC:-cc}
tests=$top/tests/c
lib=$build/$cpu/libmbj_c.a
[ -f "$lib" ] || { echo "no $lib: run make first"; exit 2; }
shared=$(basename "$build/$cpu"/libmbj_c.so.*)
room=$(mktemp -d)
trap 'rm -rf "$room"' EXIT
warnings='-Wall -Wextra -Wconversion -Wshadow -Wpedantic -Werror'
level_2='-DMBJ_LEVEL=2 -DMBJ_TOOLCHAIN="none"'
level_3='-DMBJ_LEVEL=3 -DMBJ_TOOLCHAIN="none"'
sanitizers='-fsanitize=address,undefined -fno-sanitize-recover=all'
export ASAN_OPTIONS=exitcode=23 UBSAN_OPTIONS=halt_on_error=1 TSAN_OPTIONS=halt_on_error=1
wraps='-Wl,--wrap=malloc,--wrap=aligned_alloc,--wrap=calloc,--wrap=realloc,--wrap=free,--wrap=mbj_c_version,--wrap=mbj_c_missing_feature'
selftest="$tests/selftest.c $top/include/mbj_selftest.c $tests/refuse.c"
looks='-Wl,--wrap=mbj_c_submit_job'
spoils="$wraps,--wrap=mbj_c_submit,--wrap=mbj_c_submit_job,--wrap=mbj_c_flush"

# check NAME COMMAND..: runs the command, and ends the script if it fails.
check() {
    name=$1
    shift
    if "$@" > "$room/log" 2>&1; then
        echo "ok   $name"
    else
        echo "FAIL $name"
        tail -5 "$room/log"
        exit 1
    fi
}

# compilers: those that are installed; of the others standard error says that they are skipped.
compilers() {
    for compiler in gcc g++ clang clang++; do
        if command -v $compiler > "$room/log"; then echo $compiler; else echo "skip $compiler: it isn't installed" >&2; fi
    done
}

# compile COMPILER FLAGS OUTPUT SOURCE..: as C11 or as C++17, by the compiler's name.
compile() {
    by=$1 own=$2 output=$3
    shift 3
    case $by in
    *++) $by -std=c++17 -g -O1 $warnings $own -I"$top/include" -I"$tests" -o "$output" -x c++ "$@" ;;
    *) $by -std=c11 -g -O1 $warnings $own -I"$top/include" -I"$tests" -o "$output" "$@" ;;
    esac
}

# link COMPILER FLAGS OUTPUT SOURCE..: with the archive.
link() {
    compile "$@" -x none "$lib"
}

# layout PROGRAM: what it prints, and the names that the archive and the inline code define, are those of layout.txt.
layout() {
    "$1" > "$room/layout" || return 1
    compile "$cc" -c "$room/symbols.o" "$top/include/mbj_symbols.c" || return 1
    nm --defined-only --extern-only "$lib" "$room/symbols.o" | sed -n 's/.* T \(mbj_.*\)/\1/p' | LC_ALL=C sort >> "$room/layout"
    diff "$tests/layout.txt" "$room/layout"
}

# each_refused STATUS PROGRAM FILE: with each allocation refused in turn the program ends with the status and says that memory ran out,
# having printed a prefix of the text, until a run takes fewer allocations.
each_refused() {
    "$2" < "$3" > "$room/want" || return 1
    for number in $(seq 1 2000); do
        MBJ_REFUSE=$number "$2" < "$3" > "$room/out" 2> "$room/err"
        case $? in
        0) cmp "$room/want" "$room/out" && [ "$number" -gt 3 ] && echo "$((number - 1)) allocations" > "$room/count"
           return ;;
        "$1") head -c "$(wc -c < "$room/out")" "$room/want" | cmp - "$room/out" && grep -q 'out of memory' "$room/err" || return 1 ;;
        *) cat "$room/err"; return 1 ;;
        esac
    done
    return 1
}
