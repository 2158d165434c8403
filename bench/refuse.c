// Refuses the requests for memory from REFUSE_FROM to REFUSE_TO, and writes how many there were to the file REFUSE_COUNT.
#include <fcntl.h>
#include <stddef.h>
#include <stdlib.h>
#include <unistd.h>
void *__libc_malloc(size_t), *__libc_calloc(size_t, size_t), *__libc_realloc(void *, size_t);
static long asked, first, last;
static int ready;
static int refused(void) {
  if (!ready) return 0;
  asked++;
  return first <= asked && asked <= last;
}
__attribute__((constructor)) static void begin(void) {
  char *from = getenv("REFUSE_FROM"), *to = getenv("REFUSE_TO");
  first = from ? atol(from) : 1;
  last = to ? atol(to) : 0;
  ready = 1;
}
__attribute__((destructor)) static void end(void) {
  char *path = getenv("REFUSE_COUNT"), text[24];
  int place = sizeof text, file = path ? open(path, O_WRONLY | O_CREAT | O_TRUNC, 0600) : -1;
  if (file < 0) return;
  long rest = asked;
  do text[--place] = '0' + rest % 10; while (rest /= 10);
  if (write(file, text + place, sizeof text - place) < 0) return;
  close(file);
}
void *malloc(size_t size) { return refused() ? NULL : __libc_malloc(size); }
void *calloc(size_t count, size_t size) { return refused() ? NULL : __libc_calloc(count, size); }
void *realloc(void *old, size_t size) { return refused() ? NULL : __libc_realloc(old, size); }
