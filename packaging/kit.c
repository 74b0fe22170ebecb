/* The functions of C that the program calls beside the C library, for aarch64, for Windows, over musl, and where a clone builds it of generated/: what the
 * kit's liblibc_c.a and libos_c.a have for x86-64 under glibc alone, as the contracts of the kit's libc/src/heap.rt and os/src/c.rt say it. Where the C
 * library is another one, also those of glibc that the program calls. Nothing here is proved. */
#include <errno.h>
#include <stdbool.h>
#include <stddef.h>
#include <stdint.h>
#include <stdlib.h>

#ifdef _WIN32
#include <fcntl.h>
#include <io.h>
/* The program takes the two words of `struct tried` from rax and rdx on each system, and C returns them through memory here: what the program calls stands
 * at the end of this file, and these functions of C have other names. */
#define rattle_alloc kit_alloc
#define rattle_realloc kit_realloc
#else
#include <signal.h>
#include <unistd.h>
#endif

struct tried {
    bool ok;
    void *p;
};

/* Where a pointer leads that stands for no memory; it is never read. */
static char nothing;

static struct tried tried(void *p) {
    struct tried answer = {p != NULL, p != NULL ? p : &nothing};
    return answer;
}

/* New memory of n bytes; malloc aligns to 16 bytes, and no alignment a is greater. */
struct tried rattle_alloc(size_t n, size_t a) {
    return tried(malloc(n != 0 ? n : a));
}

/* The block at p with n bytes, whose first ones are as they were; where there is no memory it stays. */
struct tried rattle_realloc(void *p, size_t kept, size_t n, size_t a) {
    (void)kept;
    return tried(realloc(p, n != 0 ? n : a));
}

void rattle_dealloc(void *p) {
    free(p);
}

/* The number of the last call's fault. */
int32_t rattle_errno(void) {
    return errno;
}

#ifndef __GLIBC__
/* Functions of glibc that the program calls, under other C libraries. */
#ifdef _WIN32
#define write_bytes kit_write
/* The C library counts the bytes of a call in 32 bits. */
static unsigned of_call(size_t n) {
    return n < 0x40000000 ? (unsigned)n : 0x40000000;
}

int64_t kit_read(int32_t file, void *p, size_t n) __asm__("read");
int64_t kit_read(int32_t file, void *p, size_t n) {
    return _read(file, p, of_call(n));
}

int64_t kit_write(int32_t file, const void *p, size_t n) __asm__("write");
int64_t kit_write(int32_t file, const void *p, size_t n) {
    return _write(file, p, of_call(n));
}

/* The bytes of a script and of a picture are those of the file: no end of a line becomes another. A file that is closed has no mode. */
__attribute__((constructor)) static void take_bytes(void) {
    for (int file = 0; file < 3; file++)
        if (_setmode(file, _O_BINARY) < 0)
            errno = 0;
}

/* The program has the signal of a closed pipe ignored: here is none. */
int64_t __sysv_signal(int32_t number, int64_t handler) {
    (void)number;
    return handler;
}
#else
#define write_bytes write
/* signal as System V has it, by which the program has the signal of a closed pipe ignored. */
void (*__sysv_signal(int number, void (*handler)(int)))(int);
void (*__sysv_signal(int number, void (*handler)(int)))(int) {
    return signal(number, handler);
}
#endif

#ifdef __x86_64__
#include <cpuid.h>

/* By these the program tests the processor before it begins: on one that lacks what x86-64-v2 has it writes a sentence and ends with status 127. */
int64_t __write(int32_t file, const void *p, size_t n);
int64_t __write(int32_t file, const void *p, size_t n) {
    return write_bytes(file, p, n);
}

struct leaf {
    unsigned told[4], active[4];
};

/* What the processor has by the leaves of cpuid 1 and 0x80000001, which are numbers 0 and 2 in glibc; of others it has nothing. */
const struct leaf *__x86_get_cpuid_feature_leaf(unsigned number);
const struct leaf *__x86_get_cpuid_feature_leaf(unsigned number) {
    static struct leaf leaves[3];
    struct leaf *it = &leaves[number < 3 ? number : 1];
    if (number == 0 || number == 2)
        if (__get_cpuid(number == 0 ? 1 : 0x80000001, &it->told[0], &it->told[1], &it->told[2], &it->told[3]))
            for (int i = 0; i < 4; i++)
                it->active[i] = it->told[i];
    return it;
}
#endif
#endif

#ifdef _WIN32
/* The two calls as the program makes them: a place for the answer becomes the first argument. */
__asm__(".text\n"
        ".globl rattle_alloc\n"
        "rattle_alloc:\n"
        "\tsubq $56, %rsp\n"
        "\tmovq %rdx, %r8\n"
        "\tmovq %rcx, %rdx\n"
        "\tleaq 32(%rsp), %rcx\n"
        "\tcall kit_alloc\n"
        "\tmovzbl 32(%rsp), %eax\n"
        "\tmovq 40(%rsp), %rdx\n"
        "\taddq $56, %rsp\n"
        "\tret\n"
        ".globl rattle_realloc\n"
        "rattle_realloc:\n"
        "\tsubq $72, %rsp\n"
        "\tmovq %r9, 32(%rsp)\n"
        "\tmovq %r8, %r9\n"
        "\tmovq %rdx, %r8\n"
        "\tmovq %rcx, %rdx\n"
        "\tleaq 48(%rsp), %rcx\n"
        "\tcall kit_realloc\n"
        "\tmovzbl 48(%rsp), %eax\n"
        "\tmovq 56(%rsp), %rdx\n"
        "\taddq $72, %rsp\n"
        "\tret\n");
#endif
