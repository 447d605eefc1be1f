/* read.c: reads one telegram of line 3 from standard input and says its type and number, or the refusal and its place. */
#include <in656.h>
#include <stdio.h>

int main(int argc, char **argv) {
  uint8_t frame[IN656_LONGEST + 1], record[IN656_RECORD_LENGTH];
  if (argc != 1) return fprintf(stderr, "usage: %s < TELEGRAM\n", argv[0]), 2;
  size_t length = fread(frame, 1, sizeof frame, stdin);
  in656_result r = in656_read(IN656_LINE_MSR3_TC, frame, length, record, sizeof record);
  if (r.refusal == IN656_OK)
    printf("ok %c %u\n", record[IN656_RECORD_TYPE_AT], (unsigned)r.number);
  else
    printf("no %u %u\n", (unsigned)r.refusal, (unsigned)r.place);
  return r.refusal != IN656_OK;
}
