# Proves and builds the library for C. Part of `iolmaster`.
library=$out/libiolmaster.a
# The sum of the sources that the library was built from.
library_sum=$out/libiolmaster.sum

# The library of the toolchain that takes memory by malloc, realloc and free.
heap_of_toolchain() {
    echo "$(dirname "$(readlink -f "$(command -v rt)")")/../c/liblibc_c.a"
}

# An archiver, which the toolchain has too.
archiver() {
    command -v ar || echo "$(dirname "$(heap_of_toolchain)")/../toolchain/bin/llvm-ar"
}

# One sum of all that the library is made of.
sum_of_library() {
    (main=iol_c && sum_of_sources)
}

has_library() {
    [ -e "$library" ] && [ -e "$library_sum" ] && [ "$(cat "$library_sum")" = "$(sum_of_library)" ]
}

# Puts what was built into one archive, with what takes memory, and keeps the sum of its sources, which comes last.
keep_library() {
    rm -f "$library_sum" "$library.$$" &&
        printf 'create %s\naddlib %s\naddlib %s\nsave\nend\n' "$library.$$" "$top/crates/iol_c/out/libiol_c.a" "$(heap_of_toolchain)" |
        "$(archiver)" -M && mv "$library.$$" "$library" && echo "$1" >"$library_sum.$$" && mv "$library_sum.$$" "$library_sum"
}

# Proves and builds its crates, where they stand in no proof of the program.
prove_library() {
    say "proving and building the library for C from its sources: about 25 minutes on two processors."
    library_sources=$(sum_of_library)
    (main='' && also=iol_c && rm -rf "$out/built" && mkdir "$out/built" && build_crates </dev/null) || return 1
    if [ "$(sum_of_library)" != "$library_sources" ]; then
        say "a source has changed meanwhile, so the library is not kept."
        return 1
    fi
    keep_library "$library_sources"
}

build_library() {
    mkdir -p "$out" && (: >>"$out/lock") && exec 9>"$out/lock" && flock 9 || return 1
    has_library || prove_library || return 1
    exec 9>&-
    say "the library is proved and built: $library"
}
