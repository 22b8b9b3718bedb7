// Calls the library with the arena of node's addon, and refuses its allocations one after the other: linked with -Wl,--wrap=malloc and
// -Wl,--wrap=realloc. The arguments are files of jobs. For each it prints how many allocations a call takes, and ends with 1 where a call
// that was refused one doesn't say that memory ran out, or the next one doesn't print the same.
#include <stdbool.h>
#include <stdint.h>
#include <stdio.h>
#include <stdlib.h>
#include <string.h>
#include "../../../bindings/node/arena.h"
#include "jsgen.h"

void *__real_malloc(size_t size);
void *__real_realloc(void *block, size_t size);

static long wanted = 0, seen = 0;

static bool is_refused(void) {
  seen += 1;
  return seen == wanted;
}

void *__wrap_malloc(size_t size) {
  return is_refused() ? NULL : __real_malloc(size);
}

void *__wrap_realloc(void *block, size_t size) {
  return is_refused() ? NULL : __real_realloc(block, size);
}

struct text {
  uint8_t *bytes;
  size_t length;
};

static struct text read_file(const char *path) {
  FILE *file = fopen(path, "rb");
  if (file == NULL || fseek(file, 0, SEEK_END) != 0) exit(2);
  struct text text = {.length = (size_t)ftell(file)};
  text.bytes = __real_malloc(text.length + 1);
  rewind(file);
  if (text.bytes == NULL || fread(text.bytes, 1, text.length, file) != text.length) exit(2);
  fclose(file);
  return text;
}

// A call of which the allocation of this number is refused.
static uint32_t print(struct text job, struct text into, struct jsgen_answer *answer, long refused) {
  wanted = refused;
  seen = 0;
  uint32_t status = jsgen_print_job(job.bytes, job.length, into.bytes, into.length, answer);
  wanted = 0;
  arena_end(refused % 2 == 0);
  return status;
}

static bool is_done(struct text job, struct text into, struct text as) {
  struct jsgen_answer answer;
  if (print(job, into, &answer, 0) != JSGEN_DONE || answer.text_length != as.length) return false;
  return memcmp(into.bytes, as.bytes, as.length) == 0;
}

static bool holds(struct text job) {
  struct text text = {__real_malloc(2 * job.length + 64), 2 * job.length + 64}, again = {__real_malloc(2 * job.length + 64), 2 * job.length + 64};
  struct jsgen_answer answer;
  arena_end(false);
  if (text.bytes == NULL || again.bytes == NULL || print(job, text, &answer, 0) != JSGEN_DONE) return false;
  text.length = answer.text_length;
  arena_end(false);
  long number = 1;
  uint32_t status = print(job, again, &answer, number);
  for (; seen >= number; number += 1) {
    if (status != JSGEN_MEMORY || !is_done(job, again, text)) return false;
    arena_end(false);
    status = print(job, again, &answer, number + 1);
  }
  printf("%ld\n", number - 1);
  free(text.bytes);
  free(again.bytes);
  return status == JSGEN_DONE;
}

int main(int count, char **paths) {
  for (int at = 1; at < count; at += 1) {
    if (!holds(read_file(paths[at]))) return 1;
  }
  return 0;
}
