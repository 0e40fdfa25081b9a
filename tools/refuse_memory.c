/* Refuses memory to a program. The allocation of number REFUSED fails; with REFUSED_ON, all after it fail too. Writes the number of
   allocations to the file REFUSED_TO when the program ends. */
#define _GNU_SOURCE
#include <dlfcn.h>
#include <errno.h>
#include <fcntl.h>
#include <stddef.h>
#include <stdlib.h>
#include <unistd.h>

static long count, refused = -1, on;

__attribute__((constructor)) static void begin(void) {
  const char *text = getenv("REFUSED");
  if (text) refused = atol(text);
  on = getenv("REFUSED_ON") != NULL;
  count = 0;
}

static int refuses(void) {
  count++;
  int is = refused > 0 && (on ? count >= refused : count == refused);
  if (is) errno = ENOMEM;
  return is;
}

__attribute__((destructor)) static void end(void) {
  const char *path = getenv("REFUSED_TO");
  int file = path ? open(path, O_WRONLY | O_CREAT | O_TRUNC, 0600) : -1;
  char digits[24];
  int at = sizeof digits;
  if (file < 0) return;
  for (long rest = count; at == sizeof digits || rest; rest /= 10) digits[--at] = '0' + rest % 10;
  if (write(file, digits + at, sizeof digits - at) < 0) _exit(99);
  close(file);
}

#define NEXT(name) static __typeof__(&name) next; if (!next) next = (__typeof__(&name))dlsym(RTLD_NEXT, #name)

extern void *__libc_malloc(size_t size);
extern void *__libc_realloc(void *old, size_t size);
extern void *__libc_calloc(size_t many, size_t size);

void *malloc(size_t size) { return refuses() ? NULL : __libc_malloc(size); }
void *realloc(void *old, size_t size) { return refuses() ? NULL : __libc_realloc(old, size); }
void *calloc(size_t many, size_t size) { return refuses() ? NULL : __libc_calloc(many, size); }
void *aligned_alloc(size_t align, size_t size) { NEXT(aligned_alloc); return refuses() ? NULL : next(align, size); }
int posix_memalign(void **to, size_t align, size_t size) { NEXT(posix_memalign); return refuses() ? ENOMEM : next(to, align, size); }
