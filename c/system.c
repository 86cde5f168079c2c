/* SPDX-License-Identifier: MIT OR Apache-2.0
 *
 * The main of the program dcc, and the functions that program.c needs of the system: memory, the words of the command
 * line, reading and writing. It is for POSIX and for Windows. The code of this file is tested, not proved.
 *
 *   cc -O2 -o dcc c/program.c c/system.c
 */
#ifdef _WIN32
#include <fcntl.h>
#include <io.h>
#include <windows.h>
#include <shellapi.h>
#else
#include <signal.h>
#include <sys/types.h>
#include <unistd.h>
#endif
#include <errno.h>
#include <stddef.h>
#include <stdint.h>
#include <stdlib.h>

/* program.c has this function, and declares the others. */
uint32_t dcc_main(void);

/* Whether there is memory, 1 or 0, and its address. */
struct dcc_64_64 { uint64_t f0, f1; };

struct dcc_64_64 dcc_system_rattle_alloc(uint64_t bytes, uint64_t align);
struct dcc_64_64 dcc_system_rattle_realloc(unsigned char *place, uint64_t old, uint64_t bytes, uint64_t align);
void dcc_system_rattle_dealloc(unsigned char *place);
uint64_t dcc_system_rattle_arg(uint64_t number, unsigned char *to, uint64_t room);
uint32_t dcc_system_rattle_errno(void);
void dcc_system_rattle_set_errno(uint32_t number);
uint64_t dcc_system_read(uint32_t file, unsigned char *to, uint64_t bytes);
uint64_t dcc_system_write(uint32_t file, unsigned char *from, uint64_t bytes);

/* ---- memory ---- */

static struct dcc_64_64 memory_at(void *place) {
    static unsigned char none[16];
    struct dcc_64_64 it;
    it.f0 = place != NULL;
    it.f1 = (uintptr_t)(place ? place : none);
    return it;
}

/* Returns the bytes to allocate. They are at least `align`, which is at most 16, so malloc aligns them. */
static uint64_t size_of(uint64_t bytes, uint64_t align) {
    return bytes ? bytes : align;
}

struct dcc_64_64 dcc_system_rattle_alloc(uint64_t bytes, uint64_t align) {
    uint64_t size = size_of(bytes, align);
    return memory_at(size > SIZE_MAX / 2 ? NULL : malloc((size_t)size));
}

struct dcc_64_64 dcc_system_rattle_realloc(unsigned char *place, uint64_t old, uint64_t bytes, uint64_t align) {
    uint64_t size = size_of(bytes, align);
    (void)old;
    return memory_at(size > SIZE_MAX / 2 ? NULL : realloc(place, (size_t)size));
}

void dcc_system_rattle_dealloc(unsigned char *place) {
    free(place);
}

/* ---- the command line ---- */

static int word_count;
static char **words;

/* Copies a word of the command line. Returns its length, -1 if there is no such word, or -2 if it is too long. */
uint64_t dcc_system_rattle_arg(uint64_t number, unsigned char *to, uint64_t room) {
    uint64_t i;
    if (number >= (uint64_t)word_count || !words[number]) return UINT64_MAX;
    for (i = 0; words[number][i]; i++) {
        if (i == room) return UINT64_MAX - 1;
        to[i] = (unsigned char)words[number][i];
    }
    return i;
}

#ifdef _WIN32
/* Returns the words of the command line in UTF-8, or NULL if memory is missing. A word that is not valid UTF-16 becomes
 * a byte that is not valid UTF-8, which dcc refuses. */
static char **utf8_words(int *count) {
    wchar_t **wide = CommandLineToArgvW(GetCommandLineW(), count);
    char **made = wide ? malloc((size_t)*count * sizeof *made) : NULL;
    int i;
    if (!made) return NULL;
    for (i = 0; i < *count; i++) {
        int length = WideCharToMultiByte(CP_UTF8, WC_ERR_INVALID_CHARS, wide[i], -1, NULL, 0, NULL, NULL);
        made[i] = malloc(length ? (size_t)length : 2);
        if (!made[i]) return NULL;
        if (length) WideCharToMultiByte(CP_UTF8, 0, wide[i], -1, made[i], length, NULL, NULL);
        else made[i][0] = (char)0xff, made[i][1] = 0;
    }
    LocalFree(wide);
    return made;
}
#endif

/* ---- files ---- */

uint32_t dcc_system_rattle_errno(void) {
    return (uint32_t)errno;
}

void dcc_system_rattle_set_errno(uint32_t number) {
    errno = (int)number;
}

#ifdef _WIN32
enum { MOST = 0x40000000 };
#define READ _read
#define WRITE _write
typedef unsigned file_size;
#else
#define MOST (SIZE_MAX / 2)
#define READ read
#define WRITE write
typedef size_t file_size;
#endif

/* Both return the number of bytes, or -1. */
uint64_t dcc_system_read(uint32_t file, unsigned char *to, uint64_t bytes) {
    return (uint64_t)(int64_t)READ((int)file, to, (file_size)(bytes > MOST ? MOST : bytes));
}

uint64_t dcc_system_write(uint32_t file, unsigned char *from, uint64_t bytes) {
    return (uint64_t)(int64_t)WRITE((int)file, from, (file_size)(bytes > MOST ? MOST : bytes));
}

int main(int argc, char **argv) {
    word_count = argc;
    words = argv;
#ifdef _WIN32
    words = utf8_words(&word_count);
    if (!words) return 3;
    _setmode(0, _O_BINARY);
    _setmode(1, _O_BINARY);
    _setmode(2, _O_BINARY);
#else
    /* a closed pipe is an error of write, not the end of the program */
    signal(SIGPIPE, SIG_IGN);
#endif
    return (int)dcc_main();
}
