/*
 * Makes one call and says on standard output, as JSON, what came of it. The job is standard input.
 *
 *   probe print ROOM [N]    jsgen_print_job with a buffer of ROOM bytes, where the Nth request for memory fails
 *   probe map ROOM [N]      the same of jsgen_map_job
 *   probe legal ROOM [N]    the same of jsgen_legal_job
 *   probe build ROOM [N]    the same of jsgen_build_job, whose lengths are told too
 *   probe check [N]         jsgen_check_job
 *   probe threads COUNT     COUNT threads that print the job 200 times each, at once
 *   probe repeat COUNT      the job printed COUNT times, with the size of the process after the first tenth and at the end
 *
 * malloc, realloc and free of what is linked are counted (-Wl,--wrap=..), so that what a call keeps is seen.
 */
#include "jsgen.h"

#include <pthread.h>
#include <stdbool.h>
#include <stdio.h>
#include <stdlib.h>
#include <string.h>

/* What stands in a buffer before a call, and beside it before and after. */
#define FILL 0xA5
#define GUARD 64
#define TURNS 200

void *__real_malloc(size_t size);
void *__real_realloc(void *block, size_t size);
void __real_free(void *block);

static bool is_counted = false;
static long requests = 0;
static long live_blocks = 0;
static long failing_request = 0;

static bool is_refused(void) {
  return is_counted && ++requests == failing_request;
}

void *__wrap_malloc(size_t size) {
  void *block = is_refused() ? NULL : __real_malloc(size);
  if (is_counted && block != NULL) live_blocks++;
  return block;
}

void *__wrap_realloc(void *old, size_t size) {
  void *block = is_refused() ? NULL : __real_realloc(old, size);
  if (is_counted && old == NULL && block != NULL) live_blocks++;
  return block;
}

void __wrap_free(void *block) {
  if (is_counted && block != NULL) live_blocks--;
  __real_free(block);
}

struct bytes {
  uint8_t *at;
  size_t length;
};

static void *room_for(size_t size) {
  void *block = __real_malloc(size == 0 ? 1 : size);
  if (block == NULL) {
    fprintf(stderr, "probe: no memory for the test\n");
    exit(70);
  }
  return block;
}

static struct bytes standard_input(void) {
  size_t room = (size_t)JSGEN_LONGEST_JOB + 2;
  struct bytes job = {room_for(room), 0};
  job.length = fread(job.at, 1, room, stdin);
  return job;
}

static bool is_filled(const uint8_t *at, size_t length) {
  for (size_t i = 0; i < length; i++) {
    if (at[i] != FILL) return false;
  }
  return true;
}

static void begin_count(const char *failing) {
  failing_request = failing == NULL ? 0 : atol(failing);
  is_counted = true;
}

static void tell_numbers(uint32_t status, const struct jsgen_answer *answer) {
  printf("\"status\":%u,\"length\":%zu,\"row\":%zu,\"field\":%zu,\"hasRow\":%u,\"start\":%u,\"rule\":%u,\"requests\":%ld,\"kept\":%ld",
         (unsigned)status, answer->text_length, answer->row, answer->field, (unsigned)answer->has_row,
         (unsigned)answer->start, (unsigned)answer->rule, requests, live_blocks);
}

static void tell_hex(const uint8_t *at, size_t length) {
  for (size_t i = 0; i < length; i++) printf("%02x", at[i]);
}

typedef uint32_t job_call(const uint8_t *job, size_t job_length, uint8_t *buffer, size_t buffer_length, struct jsgen_answer *answer);

/* A buffer, with a guard before and behind it. */
static uint8_t *guarded(size_t room) {
  uint8_t *all = room_for(room + 2 * GUARD);
  memset(all, FILL, room + 2 * GUARD);
  return all + GUARD;
}

/* What stands in the buffer, and whether all else there is as it was. */
static void tell_buffer(const uint8_t *buffer, size_t room, size_t written) {
  bool is_within = written <= room;
  bool is_kept = is_within && is_filled(buffer - GUARD, GUARD) && is_filled(buffer + written, room - written + GUARD);
  printf(",\"restAsItWas\":%s,\"text\":\"", is_kept ? "true" : "false");
  if (is_within) tell_hex(buffer, written);
  printf("\"}\n");
}

static int answered(job_call *call, struct bytes job, size_t room, const char *failing) {
  uint8_t *buffer = guarded(room);
  struct jsgen_answer answer;
  memset(&answer, FILL, sizeof answer);
  begin_count(failing);
  uint32_t status = call(job.at, job.length, buffer, room, &answer);
  is_counted = false;
  printf("{");
  tell_numbers(status, &answer);
  tell_buffer(buffer, room, status == JSGEN_DONE ? answer.text_length : 0);
  return 0;
}

/* The length that is told is the sum of all. */
static int built(struct bytes job, size_t room, const char *failing) {
  uint8_t *buffer = guarded(room);
  struct jsgen_build_answer answer;
  memset(&answer, FILL, sizeof answer);
  begin_count(failing);
  uint32_t status = jsgen_build_job(job.at, job.length, buffer, room, &answer);
  is_counted = false;
  size_t length = answer.code_length + answer.map_length + answer.legal_length;
  struct jsgen_answer numbers = {length, answer.row, answer.field, answer.has_row, answer.start, answer.rule};
  printf("{");
  tell_numbers(status, &numbers);
  printf(",\"lengths\":[%zu,%zu,%zu]", answer.code_length, answer.map_length, answer.legal_length);
  tell_buffer(buffer, room, status == JSGEN_DONE ? length : 0);
  return 0;
}

static int check(struct bytes job, const char *failing) {
  struct jsgen_answer answer;
  memset(&answer, FILL, sizeof answer);
  begin_count(failing);
  uint32_t status = jsgen_check_job(job.at, job.length, &answer);
  is_counted = false;
  printf("{");
  tell_numbers(status, &answer);
  printf("}\n");
  return 0;
}

struct turn {
  struct bytes job;
  struct bytes wanted;
  bool is_same;
};

static void *print_often(void *given) {
  struct turn *turn = given;
  uint8_t *buffer = room_for(turn->wanted.length);
  turn->is_same = true;
  for (int i = 0; i < TURNS; i++) {
    struct jsgen_answer answer = {0};
    memset(buffer, FILL, turn->wanted.length);
    uint32_t status = jsgen_print_job(turn->job.at, turn->job.length, buffer, turn->wanted.length, &answer);
    if (status != JSGEN_DONE || memcmp(buffer, turn->wanted.at, turn->wanted.length) != 0) turn->is_same = false;
  }
  __real_free(buffer);
  return NULL;
}

/* The text of a job, by two calls: the first for its length. */
static struct bytes text_of(struct bytes job) {
  struct jsgen_answer answer = {0};
  uint8_t none = 0;
  jsgen_print_job(job.at, job.length, &none, 0, &answer);
  struct bytes text = {room_for(answer.text_length), answer.text_length};
  jsgen_print_job(job.at, job.length, text.at, text.length, &answer);
  return text;
}

static int threads(struct bytes job, int count) {
  pthread_t *started = room_for((size_t)count * sizeof *started);
  struct turn *turns = room_for((size_t)count * sizeof *turns);
  struct bytes wanted = text_of(job);
  for (int i = 0; i < count; i++) {
    turns[i] = (struct turn){job, wanted, false};
    if (pthread_create(&started[i], NULL, print_often, &turns[i]) != 0) return 70;
  }
  bool is_same = true;
  for (int i = 0; i < count; i++) {
    pthread_join(started[i], NULL);
    is_same = is_same && turns[i].is_same;
  }
  printf("{\"same\":%s,\"text\":\"", is_same ? "true" : "false");
  tell_hex(wanted.at, wanted.length);
  printf("\"}\n");
  return 0;
}

/* The size of this process in pages. */
static long pages(void) {
  long size = 0;
  FILE *file = fopen("/proc/self/statm", "r");
  if (file == NULL) return 0;
  if (fscanf(file, "%ld", &size) != 1) size = 0;
  fclose(file);
  return size;
}

static int repeat(struct bytes job, int count) {
  struct bytes text = text_of(job);
  struct jsgen_answer answer = {0};
  long early = 0;
  begin_count(NULL);
  for (int i = 0; i < count; i++) {
    if (jsgen_print_job(job.at, job.length, text.at, text.length, &answer) != JSGEN_DONE) return 1;
    if (i == count / 10) {
      is_counted = false;
      early = pages();
      is_counted = true;
    }
  }
  is_counted = false;
  printf("{\"kept\":%ld,\"early\":%ld,\"late\":%ld}\n", live_blocks, early, pages());
  return 0;
}

int main(int count, char **words) {
  struct bytes job = standard_input();
  const char *first = count > 2 ? words[2] : NULL;
  const char *second = count > 3 ? words[3] : NULL;
  if (count > 2 && strcmp(words[1], "print") == 0) return answered(jsgen_print_job, job, strtoull(first, NULL, 10), second);
  if (count > 2 && strcmp(words[1], "map") == 0) return answered(jsgen_map_job, job, strtoull(first, NULL, 10), second);
  if (count > 2 && strcmp(words[1], "legal") == 0) return answered(jsgen_legal_job, job, strtoull(first, NULL, 10), second);
  if (count > 2 && strcmp(words[1], "build") == 0) return built(job, strtoull(first, NULL, 10), second);
  if (count > 1 && strcmp(words[1], "check") == 0) return check(job, first);
  if (count > 2 && strcmp(words[1], "threads") == 0) return threads(job, atoi(first));
  if (count > 2 && strcmp(words[1], "repeat") == 0) return repeat(job, atoi(first));
  fprintf(stderr, "usage: probe print ROOM [N] | map ROOM [N] | legal ROOM [N] | build ROOM [N] | check [N] | threads COUNT | repeat COUNT\n");
  return 2;
}
