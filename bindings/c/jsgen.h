/*
 * jsgen prints JavaScript: the bytes of a job go in, a syntax tree in JSON or in numbers (docs/FORMAT.md), and its text, the lines of
 * its source map or those of its licences come out, in UTF-8, or all of these by one call.
 *
 * Memory. Every pointer is the caller's, before the call and after it: nothing is kept, and a call reads and writes only
 * while it runs. No pointer is NULL, not even beside a length of 0. The buffer and the answer overlap neither each other nor the
 * job, and nothing else reads or writes them during the call. What a call takes by malloc and realloc it gives back by free
 * before it returns.
 *
 * Threads. Any number of threads may call at once, each with a buffer and an answer of its own; a job may be shared. There is no
 * state between calls. Call from no signal handler, and not from a child that a process with threads has forked.
 *
 * Stack. A call goes down the tree on the stack of the thread that makes it, so a tree can be too deep for a small one: with
 * 8 megabytes some 43,600 nested blocks print, minified (docs/PERFORMANCE.md).
 */
#ifndef JSGEN_H
#define JSGEN_H

#include <stddef.h>
#include <stdint.h>

#ifdef __cplusplus
extern "C" {
#endif

/* The most bytes of a job. */
#define JSGEN_LONGEST_JOB 33554432

/* What a call returns: the exit statuses of the program, and one more. */
enum jsgen_status {
  JSGEN_DONE = 0,
  JSGEN_REFUSED = 1,         /* the tree breaks a rule: `rule` and `start` */
  JSGEN_NOT_JOB = 3,         /* the bytes are no job: `rule`, and what of `row` and `field` it has */
  JSGEN_MEMORY = 6,          /* memory ran out, which may come in place of any other status but JSGEN_TOO_LONG */
  JSGEN_TOO_LONG = 7,        /* the job has more than JSGEN_LONGEST_JOB bytes, and is not looked at */
  JSGEN_BUFFER_TOO_SMALL = 8 /* what is asked for is longer than the buffer: `text_length`, or the three lengths of jsgen_build_job */
};

/* What is wrong, by number: docs/FORMAT.md says what each rule asks and when each fault comes. */
enum jsgen_rule {
  JSGEN_NO_RULE = 0,
  /* Rules, under JSGEN_REFUSED. Each has `start`. */
  JSGEN_RULE_PLACE = 1,
  JSGEN_RULE_NAME = 2,
  JSGEN_RULE_LITERAL = 3,
  JSGEN_RULE_TEMPLATE = 4,
  JSGEN_RULE_SPAN = 5,
  JSGEN_RULE_COMMENT = 6,
  JSGEN_RULE_INDENT = 7,
  /* Faults, under JSGEN_NOT_JOB. */
  JSGEN_FAULT_JSON = 11,
  JSGEN_FAULT_FLOAT = 12,   /* this and the next three are at a field: of a row where `has_row` is 1, else of the job's head */
  JSGEN_FAULT_MISSING = 13,
  JSGEN_FAULT_WRONG = 14,
  JSGEN_FAULT_CHILD = 15,
  JSGEN_FAULT_SHARED = 16   /* at a row */
};

/* What is told besides the status. A call writes all of it, with 0 for what the status and the rule don't speak of. */
struct jsgen_answer {
  size_t text_length; /* the bytes of the text, under JSGEN_BUFFER_TOO_SMALL and, but of jsgen_check_job, JSGEN_DONE */
  size_t row;         /* rows and fields are counted from 0 */
  size_t field;
  uint32_t has_row;   /* 1 or 0 */
  uint32_t start;     /* the start of the span of the node at which the rule is broken, in bytes; 0 of a node without one */
  uint32_t rule;
};

/*
 * Prints the program of a job. On JSGEN_DONE the buffer begins with the text, of `text_length` bytes, with no 0 behind it, and
 * is as it was behind that. Under every other status the buffer is as it was.
 *
 * Statuses: all six.
 */
uint32_t jsgen_print_job(const uint8_t *job, size_t job_length, uint8_t *buffer, size_t buffer_length, struct jsgen_answer *answer);

/*
 * The same for the lines of its source map, as docs/FORMAT.md has them: none where no path is set for one.
 */
uint32_t jsgen_map_job(const uint8_t *job, size_t job_length, uint8_t *buffer, size_t buffer_length, struct jsgen_answer *answer);

/*
 * The same for the lines of its licences that stand in a file of their own: none where the options have them elsewhere.
 */
uint32_t jsgen_legal_job(const uint8_t *job, size_t job_length, uint8_t *buffer, size_t buffer_length, struct jsgen_answer *answer);

/* What is told besides the status by jsgen_build_job. A call writes all of it, with 0 for what the status and the rule don't speak of. */
struct jsgen_build_answer {
  size_t code_length;  /* the bytes of the program's text, under JSGEN_DONE and JSGEN_BUFFER_TOO_SMALL */
  size_t map_length;   /* those of the lines of the source map, under the same */
  size_t legal_length; /* those of the lines of the licences, under the same */
  size_t row;          /* this and what follows as in jsgen_answer */
  size_t field;
  uint32_t has_row;
  uint32_t start;
  uint32_t rule;
};

/*
 * All of these at once, for which the job is read and printed once: what jsgen_print_job, jsgen_map_job and jsgen_legal_job write. On
 * JSGEN_DONE the buffer begins with the text, of `code_length` bytes, behind it stand the lines of the map, of `map_length`, and behind
 * these those of the licences, of `legal_length`, with nothing between; behind that the buffer is as it was. Under every other status the
 * buffer is as it was. Under JSGEN_BUFFER_TOO_SMALL it takes the sum of the three lengths.
 *
 * Statuses: all six.
 */
uint32_t jsgen_build_job(const uint8_t *job, size_t job_length, uint8_t *buffer, size_t buffer_length, struct jsgen_build_answer *answer);

/*
 * Says whether a job's tree keeps the rules, and prints nothing. What is wrong is told as by jsgen_print_job, and of several
 * rules that are broken it is the same one.
 *
 * Statuses: all but JSGEN_BUFFER_TOO_SMALL. On JSGEN_DONE every number of the answer is 0.
 */
uint32_t jsgen_check_job(const uint8_t *job, size_t job_length, struct jsgen_answer *answer);

#ifdef __cplusplus
}
#endif

#endif
