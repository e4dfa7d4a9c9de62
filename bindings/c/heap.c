// The heap of the archive: the three functions that its compiled code calls for memory, over the program's malloc.
//
// A program that wants the kernel's memory elsewhere defines these three itself. Each block must be aligned to every
// power of two up to 16 that divides its size, and must stay where it is until it is given back.

#include <stdbool.h>
#include <stddef.h>
#include <stdlib.h>

// Whether there was memory, and where it is.
struct tried {
    bool ok;
    void *at;
};

// What is answered beside `ok == false`; nobody reads or writes it.
static char nowhere[16];

static struct tried tried_at(void *at) {
    struct tried answer = {at != NULL, at != NULL ? at : (void *)nowhere};
    return answer;
}

// A block of no bytes gets as many as its alignment, so that it has an address.
struct tried rattle_alloc(size_t size, size_t align) {
    return tried_at(malloc(size != 0 ? size : align));
}

struct tried rattle_realloc(void *at, size_t kept, size_t size, size_t align) {
    (void)kept;
    return tried_at(realloc(at, size != 0 ? size : align));
}

void rattle_dealloc(void *at) {
    free(at);
}
