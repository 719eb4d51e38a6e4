/* SPDX-License-Identifier: MIT OR Apache-2.0
 *
 * The six functions that the program calls and glibc lacks: memory, the words of the command line, errno. The toolchain
 * has them in C for x86-64 alone; these are for ARM64. No proof covers them: what the program's proof says holds
 * there if they do what the toolchain's do. */
#include <errno.h>
#include <stddef.h>
#include <stdint.h>
#include <stdlib.h>

static int word_count;
static char **words;

/* glibc passes these to what runs before main, too. */
__attribute__((constructor)) static void keep_words(int count, char **given)
{
    word_count = count;
    words = given;
}

/* Memory, and whether there was any: where there wasn't, a place that nobody reads. */
typedef struct rattle_memory {
    uint64_t is_there;
    void *place;
} rattle_memory;

static rattle_memory memory_at(void *place)
{
    static max_align_t nothing;
    const rattle_memory memory = {place != NULL, place != NULL ? place : &nothing};
    return memory;
}

/* An alignment divides 16, as what malloc gives is aligned. */
rattle_memory rattle_alloc(size_t bytes, size_t alignment)
{
    return memory_at(malloc(bytes != 0 ? bytes : alignment));
}

rattle_memory rattle_realloc(void *old, size_t old_bytes, size_t bytes, size_t alignment)
{
    (void)old_bytes;
    return memory_at(realloc(old, bytes != 0 ? bytes : alignment));
}

void rattle_dealloc(void *place)
{
    free(place);
}

int rattle_errno(void)
{
    return errno;
}

void rattle_set_errno(int number)
{
    errno = number;
}

/* Copies a word of the command line: its length, -2 where it has more bytes than there is room for, and -1 where there
 * is no such word. */
int64_t rattle_arg(size_t word, char *out, size_t room)
{
    size_t length = 0;
    if (word >= (size_t)word_count || words[word] == NULL) {
        return -1;
    }
    for (; words[word][length] != 0; length++) {
        if (length == room) {
            return -2;
        }
        out[length] = words[word][length];
    }
    return (int64_t)length;
}
