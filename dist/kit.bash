# How rattle is called for the crates of a tree, for the scripts that read this file. The libraries of the repository
# are read from where `rlib_of TREE LIBRARY` says they were proved.
kit=$(dirname "$(rt doc)")

# The libraries that the line of a crate in TREE/crates.txt names.
libraries_of() {
    sed 's/#.*//' "$1/crates.txt" | awk -F: -v name="$2" '{ split($1, words, " ") } words[1] == name { print $2 }'
}

# The libraries of the repository below a crate, each once, the lowest first.
below() {
    sed 's/#.*//' "$1/crates.txt" | awk -F: -v crate="$2" '
        function tell(name, words, count, i) {
            if (told[name]++) return
            count = split(libraries[name], words, " ")
            for (i = 1; i <= count; i++) if (words[i] in libraries) tell(words[i])
            if (name != crate) print name
        }
        NF == 2 { split($1, words, " "); libraries[words[1]] = $2 }
        END { tell(crate) }'
}

# Whether a crate is a static library, for programs in other languages.
is_static() {
    sed 's/#.*//' "$1/crates.txt" | awk -F: -v name="$2" '
        { split($1, words, " ") }
        words[1] == name && words[2] == "staticlib" { found = 1 }
        END { exit !found }'
}

# The words by which a crate is read over the libraries that were proved.
read_words() {
    local tree=$1 crate=$2 library root=src/lib.rt
    if [ -f "$tree/crates/$crate/src/main.rt" ]; then root=src/main.rt; fi
    words=()
    if is_static "$tree" "$crate"; then words=(--crate-type staticlib); fi
    words+=(--crate-name "$crate" "$root" --extern "std=$kit/rlibs/std.rlib" -L "dependency=$kit/rlibs")
    for library in $(libraries_of "$tree" "$crate"); do
        if [ -d "$tree/crates/$library" ]; then
            words+=(--extern "$library=$(rlib_of "$tree" "$library")")
        else
            words+=(--extern "$library=$kit/rlibs/$library.rlib")
        fi
    done
    for library in $(below "$tree" "$crate"); do
        words+=(-L "dependency=$(dirname "$(rlib_of "$tree" "$library")")")
    done
    words+=(--antt-project "$kit/rattle/logic/antt-project.json" --logic-built "$kit/logic_built" --links "$crate=")
}

# Calls rattle build in the folder of a crate. What it says is shown where it fails.
call_rattle() {
    local tree=$1 crate=$2 log=$3
    shift 3
    (cd "$tree/crates/$crate" && rattle build "$@" >"$log" 2>&1) || { cat "$log" >&2; return 1; }
}

# Proves a library from nothing, and leaves what crates above it need of it. The last argument is how many jobs.
prove_library() {
    local words
    read_words "$1" "$2"
    call_rattle "$1" "$2" "$3.log" "${words[@]}" --jobs "$4" --statements -o "$3"
}

# Proves the program's own file over the libraries, compiles it for a processor, and links it, as the gate does. Its
# object file stays beside it.
build_program() {
    local words
    read_words "$1" tor
    call_rattle "$1" tor "$3.log" "${words[@]}" --cpu="$2" --jobs 1 --toolchain "$kit/toolchain" --backend llvm -o "$3.o"
    "$kit/bin/rattle-link" --target x86_64-unknown-linux-gnu --toolchain "$kit/toolchain" -o "$3" "$3.o" \
        "$kit/c/libos_c.a" "$kit/c/liblibc_c.a" >/dev/null
}

# What a static program is linked with of this machine: the start file and the archive of the C library (Debian's
# libc6-dev), and what its compiler has for unwinding (libgcc-*-dev).
static_parts() {
    echo /usr/lib/x86_64-linux-gnu/rcrt1.o
    echo /usr/lib/x86_64-linux-gnu/libc.a
    find /usr/lib/gcc/x86_64-linux-gnu -name libgcc_eh.a 2>/dev/null | sort -V | tail -n 1
}

# Whether all of them are there.
has_static_parts() {
    local part count=0
    for part in $(static_parts); do
        [ -r "$part" ] || return 1
        count=$((count + 1))
    done
    [ $count -eq 3 ]
}

# Their digest.
static_digest() {
    cat $(static_parts) | sha256sum | cut -d ' ' -f 1
}

# Members of the C library's archive that load others while a program runs: character sets (iconv), libraries (dlopen),
# name services (NSS). glibc's start files ask for most of them, in an empty C program too.
loading='^(gconv.*|iconv.*|dl-(open|close|load|libc|sym|deps|cache|version)|dl(open|sym|close|error|mopen|vsym|info|addr)|rtld_static_init|nss.*|getnss.*)\.o$'

# What the other members ask of these. Only to turn wide characters, to read a catalog of messages, or to make stacks
# executable, are they called,
# and then the program ends.
ends_at=(__gconv __gconv_btwoc_ascii __gconv_close_transform __gconv_create_spec __gconv_destroy_spec
    __gconv_find_transform __gconv_lock __gconv_open __gconv_release_step __gconv_transform_ascii_internal
    __gconv_transform_internal_ascii __stack_prot)

# A copy of the archive that has none of them: a program that is linked with it cannot load any.
without_loading() {
    cp "$1" "$2"
    chmod u+w "$2"
    "$kit/toolchain/bin/llvm-ar" t "$2" | grep -E "$loading" | sort -u |
        xargs "$kit/toolchain/bin/llvm-ar" d "$2"
}

# Links an object file, as `build_program` leaves it, into a program that asks for no file of the machine that it runs
# on. Where it is loaded is for the system to choose. `_dl_init_paths` would prepare the search for libraries.
link_static() {
    local lib=$kit/toolchain/lib start archive unwinding symbol status=0 instead=(--defsym=_dl_init_paths=abs)
    { read -r start; read -r archive; read -r unwinding; } < <(static_parts)
    for symbol in "${ends_at[@]}"; do instead+=("--defsym=$symbol=abort"); done
    without_loading "$archive" "$2.library.a"
    "$kit/toolchain/bin/ld.lld" -m elf_x86_64 -static -pie --no-dynamic-linker -z text -z relro -z now \
        -z noexecstack --eh-frame-hdr --gc-sections --no-dependent-libraries --strip-all --build-id=sha1 \
        --fatal-warnings --threads=1 -o "$2" "$start" "$lib/crti.o" "$lib/crtbeginS.o" "$1" "$kit/c/libos_c.a" \
        "$kit/c/liblibc_c.a" --start-group "$2.library.a" "$lib/libgcc.a" "$unwinding" --end-group \
        "$lib/crtendS.o" "$lib/crtn.o" "${instead[@]}" || status=$?
    rm -f "$2.library.a"
    return $status
}

# The names that programs of other languages call.
exports() {
    sed -n 's/^ *\(plover_[a-z_]*\);$/\1/p' "$1/dist/library/exports"
}

# One of the tools of LLVM that are in the toolchain's clang.
call_llvm() {
    local tool=$1
    shift
    (exec -a "$tool" "$kit/toolchain/bin/clang" "$@")
}

# Proves the file of the static library over the libraries, compiles it for a processor, and leaves in the folder an
# archive and a shared library that have its exports and no other name. Both ask of the C library for memory alone.
build_library() {
    local tree=$1 processor=$2 made=$3/made-$2 words name kept=()
    mkdir -p "$made"
    read_words "$tree" tor_c
    call_rattle "$tree" tor_c "$made/log" "${words[@]}" --cpu="$processor" --jobs 1 --toolchain "$kit/toolchain" \
        --backend llvm -o "$made/libtor_c.a"
    (cd "$made" && "$kit/toolchain/bin/llvm-ar" x libtor_c.a && "$kit/toolchain/bin/llvm-ar" x "$kit/c/liblibc_c.a")
    "$kit/toolchain/bin/ld.lld" -r --threads=1 -o "$made/joined.o" "$made/tor_c.o" "$made/heap.pic.o"
    for name in $(exports "$tree"); do kept+=("--keep-global-symbol=$name"); done
    call_llvm llvm-objcopy "${kept[@]}" --strip-unneeded "$made/joined.o" "$made/plovercasket.o"
    rm -f "$3/libplovercasket.a"
    (cd "$made" && "$kit/toolchain/bin/llvm-ar" rcsD "$3/libplovercasket.a" plovercasket.o)
    "$kit/toolchain/bin/ld.lld" -m elf_x86_64 -shared -soname libplovercasket.so.1 \
        --version-script "$tree/dist/library/exports" -z defs -z text -z relro -z now -z noexecstack --eh-frame-hdr \
        --gc-sections --no-dependent-libraries --strip-all --build-id=sha1 --fatal-warnings --threads=1 \
        -o "$3/libplovercasket.so" "$made/plovercasket.o" "$kit/toolchain/lib/libc.so.6"
    rm -rf "$made"
}
