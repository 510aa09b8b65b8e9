# common.sh: what measure/sheet, measure/traces and measure/answers share; each sources it
# shellcheck shell=sh
set -eu

# ends the run with a status and says why
fail() {
    status=$1
    shift
    echo "measure/${0##*/}: $*" >&2
    exit "$status"
}

# ends the run where a command is missing, and names the call that installs it
needed() {
    command -v "$1" >/dev/null 2>&1 || fail 2 "$1 is missing; scripts/need $1=$2 installs it"
}

# prints the comment at the head of the script, from the root
usage() {
    sed -n '2,/^[^#]/s/^# \{0,1\}//p' "measure/${0##*/}"
}

# goes to the root and reads the words of the call; the proved code is the file that is named, else FILE, which BUILD builds:
# read_words FILE BUILD WORDS ..
read_words() {
    cd "$(dirname "$(readlink -f "$0")")/.."
    proved=$PWD/$1
    build=$2
    check=''
    where=''
    shift 2
    for word in "$@"; do
        case "$word" in
            --check) check=yes ;;
            --where) where=yes ;;
            -h|--help) usage; exit 0 ;;
            -*) usage >&2; exit 2 ;;
            /*) proved=$word ;;
            *) proved=$OLDPWD/$word ;;
        esac
    done
    [ -f "$proved" ] || fail 2 "$proved is missing; $build builds it"
}

# ends the run after the check where no more is asked for
checked() {
    [ -z "$check" ] || exit 0
}

# where everything is built and measured, gone at the end
work=$(mktemp -d)
trap 'rm -rf "$work"' EXIT
trap 'exit 130' INT TERM

# whether the proved code, which is for x86-64, runs here as itself
native=''
[ "$(uname -m)" != x86_64 ] || native=yes

# compiles C for speed: compile COMPILER ARGS ..
# where the assembler can, no branch crosses 32 bytes: some processors are slow there, and chance would decide the times
compile() {
    "$@" -O3 -Wa,-mbranches-within-32B-boundaries 2>/dev/null || "$@" -O3
}

# what counts instructions here, or why nothing does
counter=''
uncounted=''
if [ -z "$native" ]; then
    uncounted="this processor is not an x86-64: the proved code ran under the emulator, and there are times only"
elif perf stat -x, -e instructions:u true 2>&1 | grep -Eq '^[0-9]+,'; then
    counter=perf
elif command -v valgrind >/dev/null 2>&1; then
    counter=callgrind
else
    uncounted="valgrind is missing (scripts/need valgrind=valgrind installs it): there are times only"
fi

# says what the instructions are of, or why there are none
print_counter() {
    if [ "$counter" ]; then echo "instructions: by $counter, $1"; else echo "$uncounted"; fi
}

# says how the calls of a library were timed, and who took turns
print_rounds() {
    awk -v who="$1" '$1 == "rounds" {
        print "time: processor time, the least of " $2 " rounds in which the " who " take turns, each time at least " $3 " ms of calls"
    }' "$work/measured"
}

# awk functions for tables of calls, over arrays of what was measured by name and size
# shellcheck disable=SC2034
cells='
    # what a call takes, with what stands around the call taken off
    function call(what, name, size) { return what[name, size] - what["around", size] }
    # a cell: what a call takes, or each of so many parts of it, or a dash where it was not measured
    function cell(what, name, size, each, format, width) {
        return sprintf("%" width "s", (name, size) in what ? sprintf(format, call(what, name, size) / each) : "-")
    }
    # how many times what another one takes
    function ratio(what, name, other, size, width) {
        return cell(what, name, size, (name, size) in what ? call(what, other, size) : 1, "%.2f", width)
    }'

# runs a command under callgrind, its output thrown away
callgrind() {
    valgrind --tool=callgrind --log-file=/dev/null --callgrind-out-file="$work/count" "$@" >/dev/null
}

# prints the instructions of a command
instructions() {
    if [ "$counter" = perf ]; then
        perf stat -x, -e instructions:u -o "$work/count" -- "$@" >/dev/null
        awk -F, '/instructions/ { print $1 }' "$work/count"
    else
        callgrind "$@"
        awk '/^(summary|totals):/ { print $2; exit }' "$work/count"
    fi
}

# prints the instructions of a program in its own functions, without those of libraries and of the dynamic linker
own_instructions() {
    callgrind "$1"
    callgrind_annotate --threshold=100 "$work/count" 2>/dev/null |
        awk -v object="[$1]" 'index($0, object) && match($0, /^ *[0-9,]+/) {
            count = substr($0, 1, RLENGTH)
            gsub(/[ ,]/, "", count)
            all += count
        } END { print all }'
}

# whether --where is asked for and can be told
where_asked() {
    [ "$where" ] || return 1
    if [ -z "$native" ]; then
        echo "where: told on an x86-64 only"
        return 1
    fi
    needed callgrind_annotate valgrind
}

# notes the instructions of a command by function, each number after this sign: by_function SIGN COMMAND ..
by_function() {
    sign=$1
    shift
    callgrind "$@"
    callgrind_annotate --threshold=100 "$work/count" 2>/dev/null |
        awk -v sign="$sign" '!/PROGRAM TOTALS/ && match($0, /^ *[0-9,]+ *\([ 0-9.]*%\) */) {
            count = substr($0, 1, RLENGTH)
            name = substr($0, RLENGTH + 1)
            sub(/\(.*/, "", count)
            gsub(/[ ,]/, "", count)
            sub(/ \[[^]]*\]$/, "", name)
            sub(/^\?\?\?:/, "", name)
            print sign count "\t" name
        }' >>"$work/functions"
}

# prints the twelve dearest functions noted, their instructions divided by a number of lines, events or lists
print_functions() {
    awk -F '\t' -v each="$1" '
        { count[$2] += $1 }
        END {
            for (name in count)
                if (count[name] > 0) all += count[name]
            for (name in count)
                if (count[name] >= each / 20)
                    printf "%10.1f%8.1f%%  %s\n", count[name] / each, 100 * count[name] / all, name
        }' "$work/functions" | sort -rn | head -n 12
}
