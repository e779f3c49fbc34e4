// Loaded before the C library by the scripts `faults` and `rows`: it refuses memory, moves the clock and holds up a send, as the script asks by a
// page of memory that both have. The file of the page is named by FAULTS_PAGE.
#include <arpa/inet.h>
#include <dlfcn.h>
#include <fcntl.h>
#include <malloc.h>
#include <stdlib.h>
#include <sys/mman.h>
#include <sys/socket.h>
#include <time.h>
#include <unistd.h>

// The words of the page, in the order in which the script knows them.
struct page {
    // so many bytes may be held (0: no limit); so many are held; so often memory was refused
    long most, held, refused;
    // so many seconds the clock of the day is set forward
    long ahead;
    // growths to sizes from one to the other are refused
    long least_size, greatest_size;
    // a send to this port is held up for so many milliseconds
    long port, milliseconds;
    // the size of the growth that was refused last
    long size;
    // so many milliseconds have passed by every clock beyond those that have
    long passed;
};

static struct page *page;

void *__libc_malloc(size_t size);
void *__libc_realloc(void *old, size_t size);
void __libc_free(void *old);

__attribute__((constructor)) static void begin(void)
{
    const char *name = getenv("FAULTS_PAGE");
    int file = name ? open(name, O_RDWR) : -1;
    void *made = file < 0 ? MAP_FAILED : mmap(0, 4096, PROT_READ | PROT_WRITE, MAP_SHARED, file, 0);
    if (file >= 0)
        close(file);
    if (made != MAP_FAILED)
        page = made;
}

static void *refused(void)
{
    __atomic_add_fetch(&page->refused, 1, __ATOMIC_RELAXED);
    return 0;
}

static int is_refused(size_t more)
{
    long most = page ? __atomic_load_n(&page->most, __ATOMIC_RELAXED) : 0;
    return most && __atomic_load_n(&page->held, __ATOMIC_RELAXED) + (long)more > most;
}

static void *counted(void *made, long before)
{
    if (page && made)
        __atomic_add_fetch(&page->held, (long)malloc_usable_size(made) - before, __ATOMIC_RELAXED);
    return made;
}

void *malloc(size_t size)
{
    return is_refused(size) ? refused() : counted(__libc_malloc(size), 0);
}

void *realloc(void *old, size_t size)
{
    long before = old ? malloc_usable_size(old) : 0;
    if (page && old && page->greatest_size && (long)size >= page->least_size && (long)size <= page->greatest_size) {
        page->size = size;
        return refused();
    }
    if ((long)size > before && is_refused(size - before))
        return refused();
    return counted(__libc_realloc(old, size), before);
}

void free(void *old)
{
    if (page && old)
        __atomic_sub_fetch(&page->held, (long)malloc_usable_size(old), __ATOMIC_RELAXED);
    __libc_free(old);
}

int clock_gettime(clockid_t which, struct timespec *moment)
{
    static int (*own)(clockid_t, struct timespec *);
    if (!own)
        own = (int (*)(clockid_t, struct timespec *))dlsym(RTLD_NEXT, "clock_gettime");
    int said = own(which, moment);
    if (!said && page && (which == CLOCK_REALTIME || which == CLOCK_MONOTONIC)) {
        long passed = __atomic_load_n(&page->passed, __ATOMIC_RELAXED);
        long nanoseconds = moment->tv_nsec + passed % 1000 * 1000000;
        moment->tv_sec += passed / 1000 + nanoseconds / 1000000000 + (which == CLOCK_REALTIME ? page->ahead : 0);
        moment->tv_nsec = nanoseconds % 1000000000;
    }
    return said;
}

ssize_t sendto(int way, const void *text, size_t length, int flags, const struct sockaddr *to, socklen_t size)
{
    static ssize_t (*own)(int, const void *, size_t, int, const struct sockaddr *, socklen_t);
    if (!own)
        own = (ssize_t (*)(int, const void *, size_t, int, const struct sockaddr *, socklen_t))dlsym(RTLD_NEXT, "sendto");
    if (page && page->port && to && to->sa_family == AF_INET && ntohs(((const struct sockaddr_in *)to)->sin_port) == page->port)
        usleep(page->milliseconds * 1000);
    return own(way, text, length, flags, to, size);
}
