/*
 * simulated.c: both ends of line 1 in one program, on a clock that it sets itself.
 *
 *   simulated FATES RECORD...
 *
 * FATES has a character for each sending on the line: . arrives, x is lost, ! has a byte with a parity error. Sendings after
 * the last character arrive. Each RECORD is train data that waits in the desk. The master asks with t, once more than there are records.
 * Where nothing is heard, the clock goes on to when something is due.
 */
#include "serial.h"
#include "show.h"

#include <stdio.h>
#include <string.h>

#define LINE IN656_LINE_ATC_TC
#define MOST ((int)IN656_QUEUE_SIZE)

struct world {
  uint32_t now;
  const char *fates;
  struct serial to_desk, to_master;
  uint8_t desk[IN656_DESK_LENGTH], master[IN656_MASTER_LENGTH];
  uint8_t waiting[MOST][IN656_RECORD_LENGTH];
  int queued, arrived[MOST];
};

/* Brings a sending to the other end, byte by byte, as its device would. Answers the length of the telegram that the other end hears, or 0. */
static size_t carry(struct world *world, struct serial *to, const uint8_t *bytes, size_t length)
{
  char fate = *world->fates != '\0' ? *world->fates++ : '.';
  size_t heard = 0, i;
  world->now += (uint32_t)(length * 11 * 1000 / 1200);
  if (fate == 'x')
    show_line(world->now, "line", "loses", "the telegram");
  if (fate == '!')
    show_line(world->now, "line", "spoils", "a byte of the telegram");
  for (i = 0; i < length && fate != 'x'; i++) {
    if (fate == '!' && i == length / 2) {
      serial_byte(to, 0xFF);
      serial_byte(to, 0x00);
    }
    heard = serial_byte(to, bytes[i]);
  }
  return heard;
}

/* The desk hears a telegram. Answers the length of the answer that the master hears, or 0. */
static size_t desk_hears(struct world *world, size_t length)
{
  uint8_t out[IN656_LONGEST], record[IN656_RECORD_LENGTH];
  const uint8_t *telegram = serial_telegram(&world->to_desk);
  char text[SHOWN];
  in656_result r = in656_desk_hear(world->desk, sizeof world->desk, world->now, telegram, length, out, sizeof out, record, sizeof record);
  desk_words(text, LINE, r, record);
  show_telegram(world->now, "panel", "hears", telegram, length, text);
  if (r.written == 0)
    return 0;
  show_telegram(world->now, "panel", "sends", out, (size_t)r.written, "");
  return carry(world, &world->to_master, out, (size_t)r.written);
}

/* Counts a record that arrived: which of the waiting ones it is. */
static void count(struct world *world, const uint8_t *record)
{
  int i;
  for (i = 0; i < world->queued; i++)
    if (memcmp(record, world->waiting[i], IN656_RECORD_LENGTH) == 0)
      world->arrived[i]++;
}

/* The master asks for what waits, until it is answered or gives up. */
static void ask(struct world *world)
{
  uint8_t out[IN656_LONGEST], record[IN656_RECORD_LENGTH];
  const uint8_t *telegram = serial_telegram(&world->to_master);
  char text[SHOWN];
  in656_result r;
  record_said(text, LINE, "t t", record);
  r = in656_master_offer(world->master, sizeof world->master, world->now, record, sizeof record, out, sizeof out);
  for (;;) {
    size_t heard = 0;
    if (r.written > 0) {
      master_words(text, LINE, r, record);
      show_telegram(world->now, "bench", "sends", out, (size_t)r.written, text);
      heard = carry(world, &world->to_desk, out, (size_t)r.written);
      if (heard > 0)
        heard = desk_hears(world, heard);
    }
    if (heard > 0) {
      r = in656_master_hear(world->master, sizeof world->master, world->now, telegram, heard, out, sizeof out, record, sizeof record);
      master_words(text, LINE, r, record);
      show_telegram(world->now, "bench", "hears", telegram, heard, text);
      if (r.record == 1)
        count(world, record);
    } else {
      world->now += in656_master_due(world->master, sizeof world->master, world->now).detail;
      r = in656_master_tick(world->master, sizeof world->master, world->now, out, sizeof out);
      if (r.outcome == IN656_MASTER_GIVEN_UP) {
        master_words(text, LINE, r, record);
        show_line(world->now, "bench", "ends", text);
      }
    }
    if (r.refusal != IN656_OK || (r.outcome >= IN656_MASTER_ANSWERED && r.outcome <= IN656_MASTER_GIVEN_UP))
      return;
  }
}

int main(int argc, char **argv)
{
  struct world world = {0};
  char text[SHOWN];
  int i, once = 0, more = 0;
  if (argc < 3 || argc > 2 + MOST) {
    fputs("usage: simulated FATES \"B 125 90 120 88\"...\n", stderr);
    return 2;
  }
  if (!same_edition())
    return 2;
  world.fates = argv[1];
  world.to_desk.marks = world.to_master.marks = 1;
  in656_gatherer_start(world.to_desk.gatherer, sizeof world.to_desk.gatherer);
  in656_gatherer_start(world.to_master.gatherer, sizeof world.to_master.gatherer);
  in656_desk_start(world.desk, sizeof world.desk, LINE);
  in656_master_start(world.master, sizeof world.master, LINE, world.now);
  for (i = 2; i < argc; i++) {
    uint8_t *record = world.waiting[world.queued];
    int said = record_said(text, LINE, argv[i], record);
    if (said) {
      in656_result r = in656_desk_queue(world.desk, sizeof world.desk, record, IN656_RECORD_LENGTH);
      said = r.refusal == IN656_OK;
      refusal_words(text, r.refusal);
    }
    if (!said) {
      fprintf(stderr, "%s: %s\n", argv[i], text);
      return 2;
    }
    world.queued++;
  }
  for (i = 0; i <= world.queued; i++)
    ask(&world);
  for (i = 0; i < world.queued; i++) {
    once += world.arrived[i] == 1;
    more += world.arrived[i] > 1;
  }
  printf("simulated: %d queued, %d arrived once, %d more than once\n", world.queued, once, more);
  return more > 0;
}
