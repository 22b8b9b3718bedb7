// The memory of the library for C in the addon, in place of the toolchain's liblibc_c.a, which asks malloc for each block. A call allocates
// for each node of a tree and gives all of it back before it ends, so here a block is cut off a chunk by moving a pointer, and nothing is
// given back before the call has ended. Each thread has an arena of its own.
#include <stdalign.h>
#include <stddef.h>
#include <stdint.h>
#include <stdlib.h>
#include <string.h>
#include "arena.h"

#define ALIGNMENT alignof(max_align_t)
#define CHUNK_SIZE ((size_t)1 << 20)
// A larger block is malloc's own, so that a text that grows is moved by the pages.
#define LARGEST_CUT ((size_t)1 << 14)

// What stands before the blocks of a chunk, and before a large block.
struct header {
  alignas(max_align_t) struct header *before;
  struct header *behind;
};

// Of all chunks, and of all large blocks, the newest.
static _Thread_local struct header *chunks = NULL, *larges = NULL;
// What is left of the newest chunk.
static _Thread_local uint8_t *at = NULL, *end = NULL;

// What the library is answered: whether there is memory, and where. The pointer is never null.
struct tried {
  uint64_t is_there;
  void *block;
};

static struct tried answer(void *block) {
  static uint8_t nowhere;
  return (struct tried){.is_there = block != NULL, .block = block != NULL ? block : &nowhere};
}

static size_t rounded(size_t size) {
  return (size + ALIGNMENT - 1) & ~(ALIGNMENT - 1);
}

static void *cut_large(size_t size) {
  if (size > SIZE_MAX - sizeof(struct header)) return NULL;
  struct header *large = malloc(sizeof *large + size);
  if (large == NULL) return NULL;
  *large = (struct header){.before = larges, .behind = NULL};
  if (larges != NULL) larges->behind = large;
  larges = large;
  return large + 1;
}

// The same block with another size, or NULL, which leaves it as it was.
static void *resize_large(void *block, size_t size) {
  if (size > SIZE_MAX - sizeof(struct header)) return NULL;
  struct header *large = realloc((struct header *)block - 1, sizeof *large + size);
  if (large == NULL) return NULL;
  if (large->before != NULL) large->before->behind = large;
  if (large->behind != NULL) large->behind->before = large;
  else larges = large;
  return large + 1;
}

static bool add_chunk(void) {
  struct header *chunk = malloc(CHUNK_SIZE);
  if (chunk == NULL) return false;
  chunk->before = chunks;
  chunks = chunk;
  at = (uint8_t *)(chunk + 1);
  end = (uint8_t *)chunk + CHUNK_SIZE;
  return true;
}

static void *cut(size_t size) {
  if (size > LARGEST_CUT) return cut_large(size);
  size = rounded(size);
  if ((at == NULL || (size_t)(end - at) < size) && !add_chunk()) return NULL;
  void *block = at;
  at += size;
  return block;
}

// The three calls of the toolchain's heap. No type of the library is aligned to more than `ALIGNMENT`, and one without size gets its alignment.

struct tried rattle_alloc(size_t size, size_t alignment) {
  return answer(cut(size == 0 ? alignment : size));
}

struct tried rattle_realloc(void *block, size_t old_size, size_t size, size_t alignment) {
  if (size == 0) size = alignment;
  if (old_size > LARGEST_CUT && size > LARGEST_CUT) return answer(resize_large(block, size));
  void *other = cut(size);
  if (other != NULL) memcpy(other, block, old_size < size ? old_size : size);
  return answer(other);
}

void rattle_dealloc(void *block) {
  (void)block;
}

static void free_all(struct header *newest) {
  while (newest != NULL) {
    struct header *before = newest->before;
    free(newest);
    newest = before;
  }
}

void arena_end(bool keeps_one) {
  free_all(larges);
  larges = NULL;
  struct header *kept = keeps_one ? chunks : NULL;
  free_all(kept != NULL ? kept->before : chunks);
  chunks = kept;
  at = NULL;
  end = NULL;
  if (kept == NULL) return;
  kept->before = NULL;
  at = (uint8_t *)(kept + 1);
  end = (uint8_t *)kept + CHUNK_SIZE;
}
