/* Not proved. See memory.h. */
#include "memory.h"

#include <sys/mman.h>
#include <unistd.h>

enum { LENGTH = 16 * 1024 * 1024, PAGE = 4096 };

struct memory memory;

static int make_memory(void)
{
    void *bytes;

    memory.descriptor = memfd_create("data", MFD_CLOEXEC);
    if (memory.descriptor < 0 || ftruncate(memory.descriptor, LENGTH))
        return 0;
    bytes = mmap(NULL, LENGTH, PROT_READ | PROT_WRITE, MAP_SHARED, memory.descriptor, 0);
    if (bytes == MAP_FAILED)
        return 0;
    memory.bytes = bytes;
    memory.length = LENGTH;
    return 1;
}

void *take_memory(size_t length)
{
    size_t at = memory.taken;

    if (!memory.bytes && !make_memory())
        return NULL;
    length = (length + PAGE - 1) / PAGE * PAGE;
    if (length > memory.length - at)
        return NULL;
    memory.taken += length;
    return memory.bytes + at;
}
