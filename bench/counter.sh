# What bench/count and bench/same share, which read it in the project's folder: how the instructions of a run are
# counted, and by what the C beside ours is compiled. `who` is the name of the one that reads it.
machine=$(uname -m)
counter_is='COUNTER, a command that runs an x86-64 program and prints how many instructions it took'
compilers='cc, gcc or clang'
[ "$machine" = x86_64 ] || compilers='x86_64-linux-gnu-gcc, or a clang that links for x86-64'

# needs WHAT: says what is missing, and ends
needs() {
    echo "$who needs $1" >&2
    exit 2
}

# counted PROGRAM INPUT: the instructions of a run
counted() {
    if [ -n "${COUNTER:-}" ]; then
        n=$($COUNTER "$1" <"$2")
    else
        n=$(valgrind --tool=callgrind --callgrind-out-file=/dev/null "$1" <"$2" 2>&1 >/dev/null |
            sed -n 's/.*Collected : //p')
    fi
    case $n in
        '' | *[!0-9]*)
            echo "$who: a run of $1 was not counted" >&2
            exit 1
            ;;
    esac
    echo "$n"
}

# run PROGRAM: on another machine under the emulator qemu-x86_64, and ours by the toolchain's loader too
run() {
    if [ "$machine" = x86_64 ]; then
        "$1"
        return
    fi
    kit=${RATTLE_HOME:-$(dirname "$(dirname "$(readlink -f "$(command -v rt)")")")}
    lib=$kit/toolchain/lib
    case $1 in
        crates/*) set -- "$lib/ld-linux-x86-64.so.2" --library-path "$lib" "$1" ;;
    esac
    qemu-x86_64 "$@"
}

# compiler: the first C compiler that makes x86-64 programs, with its flags; nothing where there is none
compiler() {
    if [ -n "${CC:-}" ]; then
        set -- "$CC"
    elif [ "$machine" = x86_64 ]; then
        set -- cc gcc clang
    else
        set -- 'x86_64-linux-gnu-gcc -static' 'clang --target=x86_64-linux-gnu -static'
    fi
    printf '%s\n' '#ifndef __x86_64__' '#error not x86-64' '#endif' '#include <unistd.h>' \
        'int main(void) { return 0; }' >"$made/try.c"
    for one; do
        if $one -o "$made/try" "$made/try.c" >/dev/null 2>&1; then
            echo "$one"
            return
        fi
    done
}

# copies FILE N: its key line, and its other line so many times
copies() {
    awk -v n="$2" 'NR == 1 { print } NR == 2 { while (n-- > 0) print }' "$1"
}

# ready PROGRAM..: proves and builds the programs, where one is not there or a source is newer, with `made` a folder for what
# is made on the way, where rt and a counter are there
ready() {
    command -v rt >/dev/null || needs "rt, the toolchain's command, on the path"
    if [ -z "${COUNTER:-}" ]; then
        [ "$machine" = x86_64 ] || needs "$counter_is, since this machine is no x86-64 and valgrind cannot count here"
        command -v valgrind >/dev/null || needs "valgrind, or $counter_is"
    fi
    made=$(mktemp -d)
    trap 'rm -rf "$made"' EXIT
    for program; do
        bin/run --make "$program" >"$made/said" 2>&1 || {
            cat "$made/said" >&2
            exit 1
        }
    done
}
