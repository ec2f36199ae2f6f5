/* For a DLL that needs no C library: the names that the module compiled for Windows leaves open. A game that links the static library takes them from its
   own C runtime. */
#include <stddef.h>

int _fltused = 1;

void *memcpy(void *to, const void *from, size_t n)
{
    void *start = to;
    __asm__ volatile("rep movsb" : "+D"(to), "+S"(from), "+c"(n) : : "memory");
    return start;
}

void *memset(void *to, int byte, size_t n)
{
    void *start = to;
    __asm__ volatile("rep stosb" : "+D"(to), "+c"(n) : "a"(byte) : "memory");
    return start;
}

/* touches the pages of a frame of rax bytes, one by one, and changes no register */
__asm__(".globl __chkstk\n"
        "__chkstk:\n"
        " push %rcx\n"
        " push %rax\n"
        " lea 24(%rsp), %rcx\n"
        "1: cmp $0x1000, %rax\n"
        " jb 2f\n"
        " sub $0x1000, %rcx\n"
        " orl $0, (%rcx)\n"
        " sub $0x1000, %rax\n"
        " jmp 1b\n"
        "2: sub %rax, %rcx\n"
        " orl $0, (%rcx)\n"
        " pop %rax\n"
        " pop %rcx\n"
        " ret\n");
