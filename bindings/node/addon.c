// The calls of bindings/c/jsgen.h for node, by Node-API. Each runs where there is the stack that its job may take: here, or on a thread
// of its own.
#define _GNU_SOURCE
#include <node_api.h>
#include <pthread.h>
#include <stdint.h>
#include <stdlib.h>
#include <string.h>
#include <sys/mman.h>
#include "arena.h"
#include "jsgen.h"

// A call goes down the tree on its stack. The rows of a job are its levels at most, so the stack is so many bytes for each byte of a job in
// JSON, or for each row of a flat job, and some more: README.md has what a level takes. It is reserved, and touched only as far as it is
// needed.
#define STACK_FOR_BYTE ((size_t)160)
#define STACK_FOR_ROW ((size_t)8 << 10)
// A flat job (docs/FORMAT.md): how it begins, how long its head is, where that says how many rows there are, and the bytes of a row at least.
#define FLAT_BEGIN "JSGF"
#define FLAT_HEAD 32
#define FLAT_ROW_COUNT 8
#define FLAT_LEAST_ROW 12
#define STACK_BESIDE ((size_t)16 << 20)
#define STACK_GUARD ((size_t)1 << 20)
// What a call takes here beside its levels, with room.
#define STACK_HERE ((size_t)512 << 10)

typedef uint32_t job_call(const uint8_t *job, size_t job_length, uint8_t *buffer, size_t buffer_length, struct jsgen_answer *answer);

// What is asked for: one text, all of them, or none.
enum asked { ONE, ALL, NONE };

// What a thread is to do, and what came of it.
struct work {
  enum asked asked;
  job_call *call; // of one text
  const uint8_t *job;
  size_t length;
  uint8_t *texts; // to be freed; NULL where memory ran out, and where none is asked for
  uint32_t status;
  struct jsgen_build_answer answer; // a text that is asked for alone is told as the code
};

// The numbers of a call of at most one text, as those of a build.
static void keep(struct work *work, const struct jsgen_answer *answer) {
  work->answer = (struct jsgen_build_answer){
      .code_length = answer->text_length, .row = answer->row, .field = answer->field, .has_row = answer->has_row, .start = answer->start, .rule = answer->rule};
}

// Writes what is asked for into a buffer of this length.
static uint32_t fill(struct work *work, size_t capacity) {
  uint32_t status;
  if (work->asked == ALL) {
    status = jsgen_build_job(work->job, work->length, work->texts, capacity, &work->answer);
  } else {
    struct jsgen_answer answer;
    status = work->asked == NONE ? jsgen_check_job(work->job, work->length, &answer) : work->call(work->job, work->length, work->texts, capacity, &answer);
    keep(work, &answer);
  }
  arena_end(true);
  return status;
}

// A text is hardly ever longer than its job, and all texts hardly ever twice as long; where they are, it is told how long.
static void run(struct work *work) {
  if (work->asked == NONE) {
    work->status = fill(work, 0);
    return;
  }
  size_t capacity = work->length * (work->asked == ALL ? 2 : 1) + 64;
  work->status = JSGEN_BUFFER_TOO_SMALL;
  for (int turn = 0; turn < 2 && work->status == JSGEN_BUFFER_TOO_SMALL; turn++) {
    free(work->texts);
    work->texts = malloc(capacity);
    work->status = work->texts == NULL ? JSGEN_MEMORY : fill(work, capacity);
    capacity = work->answer.code_length + work->answer.map_length + work->answer.legal_length;
  }
}

// The work on a thread that ends with it.
static void *run_apart(void *given) {
  run(given);
  arena_end(false);
  return NULL;
}

// The stack that a job may take.
static size_t stack_for(const uint8_t *job, size_t length) {
  if (length > JSGEN_LONGEST_JOB) return 0;
  if (length < FLAT_HEAD || memcmp(job, FLAT_BEGIN, sizeof FLAT_BEGIN - 1) != 0) return length * STACK_FOR_BYTE;
  size_t rows = 0;
  for (int byte = 3; byte >= 0; byte--) rows = rows << 8 | job[FLAT_ROW_COUNT + byte];
  size_t most = length / FLAT_LEAST_ROW;
  return (rows < most ? rows : most) * STACK_FOR_ROW;
}

// How much of this thread's stack is left, as far as that is known. Where it ends is asked once.
static size_t stack_left(void) {
  static _Thread_local uint8_t *end = NULL;
  pthread_attr_t attributes;
  if (end == NULL && pthread_getattr_np(pthread_self(), &attributes) == 0) {
    void *lowest = NULL;
    size_t size;
    if (pthread_attr_getstack(&attributes, &lowest, &size) == 0) end = lowest;
    pthread_attr_destroy(&attributes);
  }
  uint8_t *here = __builtin_frame_address(0);
  return end != NULL && here > end ? (size_t)(here - end) : 0;
}


// Whether the work was done, on a thread whose stack is `size` bytes from `stack` on, below which nothing may be touched.
static bool run_on(uint8_t *stack, size_t size, struct work *work) {
  pthread_attr_t attributes;
  pthread_t thread;
  if (mprotect(stack, STACK_GUARD, PROT_NONE) != 0 || pthread_attr_init(&attributes) != 0) return false;
  bool is_started = pthread_attr_setstack(&attributes, stack + STACK_GUARD, size - STACK_GUARD) == 0 &&
                    pthread_create(&thread, &attributes, run_apart, work) == 0;
  pthread_attr_destroy(&attributes);
  return is_started && pthread_join(thread, NULL) == 0;
}

static bool run_deep(struct work *work) {
  size_t stack_wanted = stack_for(work->job, work->length);
  if (STACK_HERE + stack_wanted <= stack_left()) {
    run(work);
    return true;
  }
  size_t size = STACK_GUARD + STACK_BESIDE + (stack_wanted & ~(STACK_GUARD - 1));
  uint8_t *stack = mmap(NULL, size, PROT_READ | PROT_WRITE, MAP_PRIVATE | MAP_ANONYMOUS | MAP_NORESERVE | MAP_STACK, -1, 0);
  if (stack == MAP_FAILED) return false;
  bool is_done = run_on(stack, size, work);
  munmap(stack, size);
  return is_done;
}

// Throws what went wrong in a call of Node-API, and gives nothing.
static napi_value failed(napi_env env, const char *what) {
  bool is_pending = false;
  napi_is_exception_pending(env, &is_pending);
  if (!is_pending) napi_throw_error(env, NULL, what);
  return NULL;
}

static bool set_number(napi_env env, napi_value object, const char *name, double number) {
  napi_value value;
  return napi_create_double(env, number, &value) == napi_ok && napi_set_named_property(env, object, name, value) == napi_ok;
}

// The bytes of a Uint8Array, which is the one argument.
static bool bytes_of(napi_env env, napi_callback_info info, uint8_t **bytes, size_t *length) {
  napi_value arguments[1];
  size_t count = 1;
  bool is_array = false;
  napi_typedarray_type type;
  if (napi_get_cb_info(env, info, &count, arguments, NULL, NULL) != napi_ok || count < 1) return false;
  if (napi_is_typedarray(env, arguments[0], &is_array) != napi_ok || !is_array) return false;
  if (napi_get_typedarray_info(env, arguments[0], &type, length, (void **)bytes, NULL, NULL) != napi_ok) return false;
  return type == napi_uint8_array;
}

// Gives a text of the buffer to an object, or throws why not.
static bool set_text(napi_env env, napi_value object, const char *name, const uint8_t *bytes, size_t length) {
  napi_value text;
  if (napi_create_string_utf8(env, length == 0 ? "" : (const char *)bytes, length, &text) != napi_ok) {
    failed(env, "the text is too long for a string");
    return false;
  }
  if (napi_set_named_property(env, object, name, text) == napi_ok) return true;
  failed(env, "no object");
  return false;
}

static bool set_texts(napi_env env, napi_value object, const struct work *work) {
  const struct jsgen_build_answer *answer = &work->answer;
  if (work->asked != ALL) return set_text(env, object, "text", work->texts, answer->code_length);
  const uint8_t *map = work->texts + answer->code_length;
  return set_text(env, object, "code", work->texts, answer->code_length) && set_text(env, object, "map", map, answer->map_length) &&
         set_text(env, object, "licences", map + answer->map_length, answer->legal_length);
}

static napi_value object_of(napi_env env, const struct work *work) {
  const struct jsgen_build_answer *answer = &work->answer;
  napi_value object;
  if (napi_create_object(env, &object) != napi_ok || !set_number(env, object, "status", work->status)) return failed(env, "no object");
  if (work->status == JSGEN_DONE) return set_texts(env, object, work) ? object : NULL;
  bool is_set = set_number(env, object, "rule", answer->rule) && set_number(env, object, "start", answer->start) &&
                set_number(env, object, "field", (double)answer->field);
  if (is_set && answer->has_row) is_set = set_number(env, object, "row", (double)answer->row);
  return is_set ? object : failed(env, "no object");
}

// What a call gives for the bytes of a job: { status, text }, or of a build { status, code, map, licences }, or the numbers of a fault
// beside the status.
static napi_value answered(napi_env env, napi_callback_info info, struct work work) {
  uint8_t *job = NULL;
  if (!bytes_of(env, info, &job, &work.length)) {
    napi_throw_type_error(env, NULL, "a job is a Uint8Array");
    return NULL;
  }
  work.job = work.length == 0 ? (const uint8_t *)"" : job;
  bool is_done = run_deep(&work);
  napi_value object = is_done ? object_of(env, &work) : failed(env, "no thread can be made that has the stack for this job");
  free(work.texts);
  return object;
}

static napi_value print_job(napi_env env, napi_callback_info info) {
  return answered(env, info, (struct work){.asked = ONE, .call = jsgen_print_job});
}

static napi_value map_job(napi_env env, napi_callback_info info) {
  return answered(env, info, (struct work){.asked = ONE, .call = jsgen_map_job});
}

static napi_value legal_job(napi_env env, napi_callback_info info) {
  return answered(env, info, (struct work){.asked = ONE, .call = jsgen_legal_job});
}

static napi_value build_job(napi_env env, napi_callback_info info) {
  return answered(env, info, (struct work){.asked = ALL});
}

static napi_value check_job(napi_env env, napi_callback_info info) {
  return answered(env, info, (struct work){.asked = NONE});
}

static bool set_function(napi_env env, napi_value exports, const char *name, napi_callback call) {
  napi_value function;
  return napi_create_function(env, name, NAPI_AUTO_LENGTH, call, NULL, &function) == napi_ok && napi_set_named_property(env, exports, name, function) == napi_ok;
}

NAPI_MODULE_INIT() {
  bool is_set = set_function(env, exports, "printJob", print_job) && set_function(env, exports, "mapJob", map_job) &&
                set_function(env, exports, "legalJob", legal_job) && set_function(env, exports, "buildJob", build_job) &&
                set_function(env, exports, "checkJob", check_job);
  return is_set ? exports : NULL;
}
