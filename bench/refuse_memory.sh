#!/usr/bin/env bash
# Refuses each allocation of a run in turn, one number a run, and says what came of it. Each run must end with 7 and nothing on standard
# output, or, where the refused request was not needed, with 0 and the whole output. With several workers two whole outputs may differ: a
# report of `run` is whole, too, where the program's own `check` finds it legal. A run that does not end within a minute is wrong.
#
#     bench/refuse_memory.sh [WORD ..]      a small library that the program is started with refuses
#     FIRST=1 LAST=50 bench/refuse_memory.sh make 3      these numbers alone
#     PROGRAM=path/to/another bench/refuse_memory.sh ..  another program that takes the same words
#
# It refuses in the program as users have it; bench/refuse_memory_checked.py does the same by the toolchain's own runner.
# The words are the program's own; without words it takes examples/first and one worker. Status 0 means that each run was right.
set -euo pipefail
here=$(cd "$(dirname "${BASH_SOURCE[0]}")" && pwd)
root=$(dirname "$here")
words=("$@")
[ "$#" -gt 0 ] || words=(run "$root/examples/first/world.txt" "$root/examples/first/script.txt" 1)
first=${FIRST:-1}
last=${LAST:-1000000}
work=$(mktemp -d)
trap 'rm -rf "$work"' EXIT

# Counts the allocations that the program itself asks for, and answers none at the number in REFUSE. At the end it writes their count
# into the file that REFUSE_COUNT names.
make_library() {
    cat >"$work/refuse.c" <<'C'
#define _GNU_SOURCE
#include <dlfcn.h>
#include <link.h>
#include <stdatomic.h>
#include <stdio.h>
#include <stdlib.h>
#include <sys/syscall.h>
#include <unistd.h>

extern void *__libc_malloc(size_t);
extern void *__libc_realloc(void *, size_t);
static atomic_ulong asked;
static unsigned long refused;
static char *low, *high;

static int note(struct dl_phdr_info *info, size_t size, void *data) {
    (void)size;
    (void)data;
    for (int i = 0; i < info->dlpi_phnum; i++) {
        if (info->dlpi_phdr[i].p_type != PT_LOAD) continue;
        char *from = (char *)info->dlpi_addr + info->dlpi_phdr[i].p_vaddr;
        char *to = from + info->dlpi_phdr[i].p_memsz;
        if (!low || from < low) low = from;
        if (!high || to > high) high = to;
    }
    return 1; /* the program comes first; the libraries do not matter */
}

__attribute__((constructor)) static void begin(void) {
    char *number = getenv("REFUSE");
    refused = number ? strtoul(number, 0, 10) : 0;
    dl_iterate_phdr(note, 0);
}

__attribute__((destructor)) static void end(void) {
    char *name = getenv("REFUSE_COUNT");
    unsigned long count = atomic_load(&asked);
    FILE *file = name ? fopen(name, "w") : 0;
    if (file) {
        fprintf(file, "%lu\n", count);
        fclose(file);
    }
}

/* a program with threads ends by _exit, which runs no destructor */
void _exit(int status) {
    end();
    syscall(SYS_exit_group, status);
    __builtin_unreachable();
}

static int refuses(char *caller) {
    return low <= caller && caller < high && atomic_fetch_add(&asked, 1) + 1 == refused;
}

void *malloc(size_t size) {
    return refuses(__builtin_return_address(0)) ? 0 : __libc_malloc(size);
}

void *realloc(void *old, size_t size) {
    return refuses(__builtin_return_address(0)) ? 0 : __libc_realloc(old, size);
}
C
    ${CC:-cc} -O2 -shared -fPIC -o "$work/refuse.so" "$work/refuse.c" -ldl
}

# run_with NUMBER: leaves the output in $work/out and the status in $status; 0 refuses nothing.
run_with() {
    status=0
    timeout 60 env REFUSE="$1" REFUSE_COUNT="$work/count" LD_PRELOAD="$work/refuse.so" \
        "$program" "${words[@]}" >"$work/out" 2>"$work/err" || status=$?
}

# Whether the output is whole.
is_whole() {
    cmp -s "$work/out" "$work/whole" && return
    [ "${words[0]}" = run ] && "$program" check "${words[1]}" "${words[2]}" "$work/out" >/dev/null 2>&1
}

program=${PROGRAM:-}
if [ -z "$program" ]; then
    # With no words the program says that they are no command; this builds it where it is missing or old.
    "$root/fol" >/dev/null 2>&1 || true
    program="$root/crates/fol_main/out/fol_main"
fi
make_library

run_with 0
if [ "$status" != 0 ]; then
    echo "with all memory the run ends with $status" >&2
    exit 1
fi
cp "$work/out" "$work/whole"
# How many allocations the whole run asks for; with more than one worker it may differ from run to run.
all=$(cat "$work/count")
[ "$last" -le "$all" ] || last=$all
refused=0 unneeded=0 wrong=0
for ((number = first; number <= last; number++)); do
    run_with "$number"
    if [ "$status" = 7 ] && [ ! -s "$work/out" ]; then
        refused=$((refused + 1))
    elif [ "$status" = 0 ] && is_whole; then
        unneeded=$((unneeded + 1))
    else
        wrong=$((wrong + 1))
        echo "allocation $number of $all: status $status, $(wc -c <"$work/out") bytes of output: $(head -c 200 "$work/err" | head -1)"
    fi
done
echo "allocations $first to $last of $all: $refused runs ended with 7 and wrote nothing, $unneeded with 0 and wrote all, $wrong otherwise"
[ "$wrong" = 0 ]
