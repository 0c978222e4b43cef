# What the launcher ./tor, dist/from-source, dist/install and dist/package share: POSIX sh, read by each of them, which
# has set `root`.
LC_ALL=C
export LC_ALL
unset IFS CDPATH GREP_OPTIONS GZIP proofs

# Tells a text in one line, after the name of the program that tells it, tor if none is given.
say() {
    printf '%s: %s\n' "${2-tor}" "$(printf %s "$1" | tr '\000-\037' '?')" >&2
}

# Whether the PATH has these commands; tells which it has not.
has_commands() {
    for command in "$@"; do
        if ! command -v "$command" >/dev/null; then
            printf 'tor: %s is not on the PATH\n' "$command" >&2
            return 1
        fi
    done
}

# Whether this is a machine for which there is a program; tells what it is if not.
is_our_machine() {
    machine=$(uname -sm 2>/dev/null) || machine='an unknown system'
    if [ "$machine" = 'Linux x86_64' ]; then return 0; fi
    say "the program is for x86-64 Linux, and this is $machine"
    return 1
}

# The processor that the program is for, since it hashes faster on the newer of the two: the one whose instructions all
# processors of this machine have.
processor() {
    told=/proc/cpuinfo
    if ! [ -r $told ]; then told=/dev/null; fi
    awk '/^flags/ {
            for (word in has) delete has[word]
            for (i = 3; i <= NF; i++) has[$i]
            count = split("avx avx2 bmi1 bmi2 f16c fma abm movbe xsave", needed, " ")
            for (i = 1; i <= count; i++) if (!(needed[i] in has)) older = 1
            found = 1
        }
        END { print found && !older ? "x86-64-v3" : "x86-64-v2" }' $told
}

is_digest() {
    case $1 in *[!0-9a-f]*) return 1 ;; esac
    [ ${#1} -eq 64 ]
}

# The digest that a file like dist/built-from names for the program of a processor; nothing if it names none.
named_digest() (
    while read -r first second; do
        if [ "$first" = "$1" ] && is_digest "$second"; then echo "$second"; fi
    done <"$2"
)

# Whether a file has this digest.
has_digest() {
    [ "$(sha256sum 2>/dev/null <"$1")" = "$2  -" ]
}

# Sets `alone` to what find is asked of a folder: that it belongs to this user or to root, and no other can write it.
set_alone() {
    alone='-prune -type d ! -perm -020 ! -perm -002'
    if ! [ -O "$1" ]; then alone="$alone -user 0"; fi
}

# Whether a folder is so. A link to one counts as none.
is_ours_alone() {
    set_alone "$1"
    [ -n "$(find "$1" $alone 2>/dev/null)" ]
}

# Makes a folder, if it is not there: whether it can be written here, and by no other.
can_keep() {
    if ! [ -d "$1" ]; then (umask go-w && mkdir "$1") 2>/dev/null || true; fi
    is_ours_alone "$1" && [ -w "$1" ]
}

# Whether a program starts here; tells what stops it. A shell would read one that is of no kind it knows as a script of
# its own, so its first bytes are looked at.
starts() {
    status=0
    case $(head -c 20 "$1" | od -An -v -tx1 | tr -d ' \n') in
        7f454c4602*3e00 | 2321*)
            said=$({ "$1" --version 2>&1 >/dev/null </dev/null; exit $?; } 2>/dev/null) || status=$?
            ;;
        *) status=126 said='it is no program for x86-64' ;;
    esac
    if [ $status -eq 0 ]; then return 0; fi
    # Of one that a signal ends it is the shell that tells.
    if [ $status -gt 128 ]; then said=; fi
    said=$(printf '%s\n' "$said" | head -n 1)
    said=${said##*"$1: "}
    case $said in
        *'lacks a feature of '*)
            said=${said##*lacks a feature of }
            said="this processor lacks instructions that it needs (${said%%,*})"
            ;;
    esac
    say "the program does not start here: ${said:-it ends with status $status}"
    return 1
}

# Removes what is of other sources from out/, and what an interrupted run left there an hour ago or more; of the same
# sources what is of other proofs, if `proofs` tells which count. Another run may do the same.
clear_old() {
    counts=$digest.${proofs-*}
    find "$root/out" -maxdepth 1 -type d -name 'proved.*' ! -name "proved.$counts.*" -exec rm -rf {} + 2>/dev/null ||
        true
    find "$root/out" -maxdepth 1 -type f \( \( -name 'tor.*' ! -name "*.$digest" \) \
        -o \( -name 'built.*' ! -name "*.$counts" \) \
        -o \( \( -name 'unpacking.*' -o -name 'building.*' \) -mmin +60 \) \) -exec rm -f {} + 2>/dev/null || true
}

# A text with a name in place of tor, but for what the program prints.
named() {
    upper=$(printf %s "$1" | tr '[:lower:]' '[:upper:]')
    sed -e "s/^\.TH TOR /.TH $upper /" \
        -e "s/\(^\|[^A-Za-z_']\|\\\\fB\)tor\([^A-Za-z0-9_.:]\|\$\)/\1$1\2/g" "$2"
}
