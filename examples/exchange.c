/* exchange.c: figure 4.8 of IN 656 with both ends in one program: the master asks with t and gets the train data that waits in the desk. */
#include <stdio.h>
#include <string.h>
#include "in656.h"

static uint8_t desk[IN656_DESK_LENGTH], master[IN656_MASTER_LENGTH];
static uint8_t record[IN656_RECORD_LENGTH], out[IN656_LONGEST], frame[IN656_LONGEST];

/* Fills the record block with a type, its values still 0. */
static void fill(char type) {
  in656_record(IN656_LINE_ATC_TC, (uint8_t)type, 0, record, sizeof record);
}

/* Puts a value into the record block by its packet's letter, and gives one. */
static void put(char letter, uint32_t value) {
  in656_put_value(IN656_LINE_ATC_TC, record, sizeof record, (uint8_t)letter, value);
}

static unsigned value(char letter) {
  return (unsigned)in656_value(IN656_LINE_ATC_TC, record, sizeof record, (uint8_t)letter).detail;
}

/* Copies what a call sent from the output to the line, and shows it without LF and CR. */
static size_t sent(const char *end, in656_result r) {
  if (r.written < 2) return 0;
  memcpy(frame, out, (size_t)r.written);
  printf("%s sends %.*s\n", end, (int)r.written - 2, (const char *)frame + 1);
  return (size_t)r.written;
}

/* Says that a call was refused, and why. */
static int refused(in656_result r) {
  char words[IN656_WORDS_LENGTH];
  if (r.refusal == IN656_OK) return 0;
  in656_refusal_words(r.refusal, words, sizeof words);
  printf("refused %u, %s\n", (unsigned)r.refusal, words);
  return 1;
}

int main(int argc, char **argv) {
  in656_result r;
  size_t n;
  if (argc != 1) return fprintf(stderr, "usage: %s\n", argv[0]), 2;
  if (!in656_same_edition(IN656_VERSION)) return fputs("the library is of another edition than its header\n", stderr), 2;
  if (refused(in656_desk_start(desk, sizeof desk, IN656_LINE_ATC_TC))) return 1;
  if (refused(in656_master_start(master, sizeof master, IN656_LINE_ATC_TC, 0))) return 1;

  fill('B');
  put('L', 125);
  put('%', 90);
  put('H', 120);
  put('R', 88);
  if (refused(in656_desk_queue(desk, sizeof desk, record, sizeof record))) return 1;

  fill('t');
  put('B', 't');
  r = in656_master_offer(master, sizeof master, 100, record, sizeof record, out, sizeof out);
  if (refused(r)) return 1;
  n = sent("master", r);

  r = in656_desk_hear(desk, sizeof desk, 110, frame, n, out, sizeof out, record, sizeof record);
  if (refused(r) || r.outcome != IN656_DESK_HANDLED || r.detail != IN656_FROM_QUEUE) return 1;
  n = sent("desk", r);

  r = in656_master_hear(master, sizeof master, 150, frame, n, out, sizeof out, record, sizeof record);
  if (refused(r) || r.outcome != IN656_MASTER_ANSWERED || !r.record) return 1;
  printf("master has %c: length %u, braking %u, speed %u, direction %u; sending count %u\n", record[IN656_RECORD_TYPE_AT], value('L'),
         value('%'), value('H'), value('R'), (unsigned)r.count);
  return 0;
}
