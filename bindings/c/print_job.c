/* Prints the job in a file: a caller of jsgen.h to learn from. Its exit statuses are those of the library. */
#include "jsgen.h"

#include <stdio.h>
#include <stdlib.h>

/* The bytes of a file, one more than a job may have at most: so what is too long is seen. NULL where there are none to have. */
static uint8_t *read_file(const char *path, size_t *length) {
  FILE *file = fopen(path, "rb");
  uint8_t *bytes = malloc((size_t)JSGEN_LONGEST_JOB + 1);
  int failed = file == NULL || bytes == NULL;
  if (!failed) {
    *length = fread(bytes, 1, (size_t)JSGEN_LONGEST_JOB + 1, file);
    failed = ferror(file);
  }
  if (file != NULL) fclose(file);
  if (!failed) return bytes;
  free(bytes);
  return NULL;
}

/* Prints into a buffer that grows to what is needed: most texts are shorter than their jobs. */
static uint32_t print_text(const uint8_t *job, size_t job_length, uint8_t **text, struct jsgen_answer *answer) {
  size_t room = job_length + 1;
  for (;;) {
    *text = malloc(room);
    if (*text == NULL) return JSGEN_MEMORY;
    uint32_t status = jsgen_print_job(job, job_length, *text, room, answer);
    if (status != JSGEN_BUFFER_TOO_SMALL) return status;
    free(*text);
    room = answer->text_length;
  }
}

static const char *rule_name(uint32_t rule) {
  switch (rule) {
    case JSGEN_RULE_PLACE: return "Place";
    case JSGEN_RULE_NAME: return "Name";
    case JSGEN_RULE_LITERAL: return "Literal";
    case JSGEN_RULE_TEMPLATE: return "Template";
    case JSGEN_RULE_SPAN: return "Span";
    case JSGEN_RULE_COMMENT: return "Comment";
    case JSGEN_RULE_INDENT: return "Indent";
    case JSGEN_FAULT_JSON: return "Json";
    case JSGEN_FAULT_FLOAT: return "Float";
    case JSGEN_FAULT_MISSING: return "Missing";
    case JSGEN_FAULT_WRONG: return "Wrong";
    case JSGEN_FAULT_CHILD: return "Child";
    case JSGEN_FAULT_SHARED: return "Shared";
    default: return "?";
  }
}

/* What is wrong with a job, and where: the line that the program says. */
static void tell_fault(const struct jsgen_answer *answer) {
  fprintf(stderr, "not a job: %s", rule_name(answer->rule));
  if (answer->has_row) {
    fprintf(stderr, " row %zu", answer->row);
  } else if (answer->rule != JSGEN_FAULT_JSON) {
    fprintf(stderr, " head");
  }
  if (answer->rule != JSGEN_FAULT_JSON && answer->rule != JSGEN_FAULT_SHARED) fprintf(stderr, " field %zu", answer->field);
  fprintf(stderr, "\n");
}

static void tell(uint32_t status, const struct jsgen_answer *answer) {
  switch (status) {
    case JSGEN_REFUSED:
      fprintf(stderr, "refused: %s at %lu\n", rule_name(answer->rule), (unsigned long)answer->start);
      break;
    case JSGEN_NOT_JOB:
      tell_fault(answer);
      break;
    case JSGEN_TOO_LONG:
      fprintf(stderr, "input too long\n");
      break;
    default:
      fprintf(stderr, "out of memory\n");
  }
}

int main(int count, char **words) {
  if (count != 2) {
    fprintf(stderr, "usage: print_job FILE\n");
    return 2;
  }
  size_t job_length = 0;
  uint8_t *job = read_file(words[1], &job_length);
  if (job == NULL) {
    fprintf(stderr, "no file to read: %s\n", words[1]);
    return 4;
  }
  uint8_t *text = NULL;
  struct jsgen_answer answer = {0};
  uint32_t status = print_text(job, job_length, &text, &answer);
  if (status != JSGEN_DONE) {
    tell(status, &answer);
  } else if (fwrite(text, 1, answer.text_length, stdout) != answer.text_length || fflush(stdout) != 0) {
    fprintf(stderr, "write failed\n");
    status = 5;
  }
  free(text);
  free(job);
  return (int)status;
}
