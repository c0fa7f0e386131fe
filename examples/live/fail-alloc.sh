#!/bin/sh
# Lets each allocation of a live run fail in turn, and says how the runs ended.
#
#     sh examples/live/fail-alloc.sh [WORKERS PARTS WINDOW [PROGRAM]]
#
# from the top of the repository, once `rt run` in crates/cellift has built the program; the size is 2 2 2 if none is given.
# It needs Linux with the C library glibc, and `cc` for the few lines that stand before that library's malloc.
#
# A run whose allocation fails has to end within 20 seconds, either with status 5, nothing on out, and `out of memory` on err; or
# with status 0 and the whole transcript: where no thread could be started the caller does its work, and a list that finds no
# room ahead for all its items asks again as they come. A run that hangs, ends otherwise, or prints something else is named, and
# the status of this script is 1. It goes on until the allocation that is to fail doesn't come in 20 runs one after another,
# since the number of them differs a little from run to run.

top=$(cd "$(dirname "$0")/../.." && pwd)
workers=${1:-2}
parts=${2:-2}
window=${3:-2}
program=${4:-$top/crates/cellift/out/cellift}
net=$top/crates/cellift/data/counter.json
stim=$top/crates/cellift/data/counter.stim
script=$top/examples/live/counter.sessions

[ -x "$program" ] || {
    echo "no program $program: say rt run -- check data/counter.json in crates/cellift" >&2
    exit 2
}
folder=$(mktemp -d) || exit 2
trap 'rm -rf "$folder"' EXIT

cat > "$folder/fail.c" <<'END'
#include <errno.h>
#include <fcntl.h>
#include <stddef.h>
#include <stdlib.h>
#include <unistd.h>

void *__libc_malloc(size_t);
void *__libc_calloc(size_t, size_t);
void *__libc_realloc(void *, size_t);

static long calls, wanted;

/* What was allocated before main doesn't count. */
__attribute__((constructor)) static void begin(void)
{
    const char *number = getenv("FAIL_ALLOC");
    calls = 0;
    wanted = number ? atol(number) : 0;
}

/* Whether this is the call that is to fail. Then the mark is made. */
static int fails(void)
{
    const char *mark = getenv("FAIL_MARK");
    if (wanted == 0 || __atomic_add_fetch(&calls, 1, __ATOMIC_SEQ_CST) != wanted)
        return 0;
    if (mark)
        close(open(mark, O_CREAT | O_WRONLY, 0600));
    errno = ENOMEM;
    return 1;
}

void *malloc(size_t size) { return fails() ? NULL : __libc_malloc(size); }
void *calloc(size_t count, size_t size) { return fails() ? NULL : __libc_calloc(count, size); }
void *realloc(void *old, size_t size) { return fails() ? NULL : __libc_realloc(old, size); }
END
cc -shared -fPIC -O1 -o "$folder/fail.so" "$folder/fail.c" || exit 2

# The run that is tried, with what the environment of the first words says.
run() {
    timeout 20 env "$@" "$program" run "$net" "$stim" "$script" "$workers" "$parts" "$window" > "$folder/out" 2> "$folder/err"
}

# The transcript, and the sum of the counts.
told() {
    awk '/^workers / { sum = 0; for (i = 2; i <= NF; i++) sum += $i; print "pieces", sum; next } { print }' "$folder/out"
}

run FAIL_ALLOC=0 || {
    echo "the run ends with status $? where nothing fails" >&2
    exit 2
}
told > "$folder/whole"

number=0
idle=0
whole=0
none=0
wrong=0
while [ "$idle" -lt 20 ]; do
    number=$((number + 1))
    rm -f "$folder/mark"
    run FAIL_ALLOC=$number FAIL_MARK="$folder/mark" LD_PRELOAD="$folder/fail.so"
    status=$?
    if [ "$status" = 0 ] && told | cmp -s - "$folder/whole" && [ ! -s "$folder/err" ]; then
        ended=whole
    elif [ "$status" = 5 ] && [ ! -s "$folder/out" ] && [ "$(cat "$folder/err")" = "out of memory" ]; then
        ended=none
    else
        ended=wrong
        wrong=$((wrong + 1))
        echo "allocation $number: status $status"
        cat "$folder/out" "$folder/err"
    fi
    if [ ! -e "$folder/mark" ]; then
        idle=$((idle + 1))
        continue
    fi
    idle=0
    case $ended in
    whole) whole=$((whole + 1)) ;;
    none) none=$((none + 1)) ;;
    esac
done
echo "run of $workers workers, $parts parts, window $window: $none runs told want of memory, $whole ended with the whole text, $wrong went wrong"
[ "$wrong" = 0 ]
