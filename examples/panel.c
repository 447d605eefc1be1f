/*
 * panel.c: the train computer's end of line 1, the desk.
 *
 *   panel DEVICE [RECORD]...
 *
 * DEVICE is a serial device, or - for a pseudo-terminal of its own. Each RECORD, and each row typed later, is train data,
 * as "B 125 90 120 88": length 125 m, braking percentage 90, speed 120 km/h, direction 88 or 0 (001 section 6.3).
 * It answers t once and r until newer data comes. A row "look" shows what waits and what is set, and "clear" takes both back,
 * as at the end of a shift. The panel runs until it is interrupted or the line is gone.
 */
#include "serial.h"
#include "show.h"

#include <errno.h>
#include <poll.h>
#include <stdio.h>
#include <string.h>
#include <unistd.h>

#define LINE IN656_LINE_ATC_TC
#define WHO "panel"

struct panel {
  struct serial line;
  uint8_t desk[IN656_DESK_LENGTH];
};

/* Shows what the desk holds. */
static void look(const struct panel *panel)
{
  uint8_t record[IN656_RECORD_LENGTH];
  char text[SHOWN], words[SHOWN] = "nothing";
  in656_result r = in656_desk_look(panel->desk, sizeof panel->desk, record, sizeof record);
  uint32_t i;
  if (r.record == 1)
    record_words(words, LINE, record);
  snprintf(text, SHOWN, "line %s, last number %u, %u of %u records wait, set for r: %.200s", r.lost == 1 ? "lost" : "good",
           (unsigned)r.number, (unsigned)r.count, IN656_QUEUE_SIZE, words);
  show_line(day_ms(), WHO, "looks", text);
  for (i = 0; i < r.count; i++) {
    in656_desk_waiting(panel->desk, sizeof panel->desk, i, record, sizeof record);
    record_words(text, LINE, record);
    show_line(day_ms(), WHO, "waits", text);
  }
}

/* Forgets what waits and what is set. */
static void clear(struct panel *panel)
{
  in656_desk_clear_queue(panel->desk, sizeof panel->desk);
  in656_desk_clear_set(panel->desk, sizeof panel->desk);
  show_line(day_ms(), WHO, "clears", "nothing waits, and nothing is set for r");
}

/*
 * Takes train data from the keyboard: queues it for t and sets it for r. The desk refuses what it cannot send.
 * The queue comes first: it may be full, and then the row shall not be set either. What it takes can be set.
 */
static void take_data(struct panel *panel, const char *row)
{
  uint8_t record[IN656_RECORD_LENGTH];
  char text[SHOWN];
  in656_result r;
  if (!record_said(text, LINE, row, record)) {
    show_line(day_ms(), WHO, "typed", text);
    return;
  }
  r = in656_desk_queue(panel->desk, sizeof panel->desk, record, sizeof record);
  if (r.refusal == IN656_OK)
    r = in656_desk_set(panel->desk, sizeof panel->desk, record, sizeof record);
  if (r.refusal == IN656_OK)
    record_words(text, LINE, record);
  else
    refusal_words(text, r.refusal);
  show_line(day_ms(), WHO, r.refusal == IN656_OK ? "queues" : "typed", text);
}

static void take_row(struct panel *panel, const char *row)
{
  if (strcmp(row, "look") == 0)
    look(panel);
  else if (strcmp(row, "clear") == 0)
    clear(panel);
  else
    take_data(panel, row);
}

/* Shows what the master sent (001 sections 6.5, 6.6 and 6.8). A repeat does not come here: the desk answers it by itself. */
static void take_record(const uint8_t record[IN656_RECORD_LENGTH])
{
  uint8_t type = record[IN656_RECORD_TYPE_AT];
  unsigned value = (unsigned)in656_value(LINE, record, IN656_RECORD_LENGTH, type == 'F' ? 'P' : type == 'G' ? 'E' : 'm').detail;
  char text[SHOWN] = "";
  if (type == 'F')
    snprintf(text, sizeof text, "position %04u", value);
  if (type == 'G')
    snprintf(text, sizeof text, "fault code %03u", value);
  if (type == 'c')
    snprintf(text, sizeof text, "lamps %s", value == 'T' ? "on" : "off");
  show_line(day_ms(), WHO, "shows", text);
}

/* Hears a telegram and sends the answer. 0, or -1 if the line is gone. */
static int hear(struct panel *panel, size_t length)
{
  uint32_t now = clock_ms();
  uint8_t out[IN656_LONGEST], record[IN656_RECORD_LENGTH];
  const uint8_t *telegram = serial_telegram(&panel->line);
  char text[SHOWN];
  in656_result r = in656_desk_hear(panel->desk, sizeof panel->desk, now, telegram, length, out, sizeof out, record, sizeof record);
  desk_words(text, LINE, r, record);
  show_telegram(day_ms(), WHO, "hears", telegram, length, text);
  if (r.written > 0) {
    if (serial_send(&panel->line, out, (size_t)r.written) != 0)
      return -1;
    show_telegram(day_ms(), WHO, "sent", out, (size_t)r.written, "");
  }
  if (r.record == 1)
    take_record(record);
  return 0;
}

/* How long poll may sleep, in milliseconds: until a tick does something; -1, for ever, where none will. */
static int rest(const struct panel *panel)
{
  in656_result due = in656_desk_due(panel->desk, sizeof panel->desk, clock_ms());
  return due.outcome == IN656_DUE_AFTER ? (int)due.detail : -1;
}

/* Runs until the line is gone; errno says why. */
static void run(struct panel *panel)
{
  struct row row = {"", 0};
  int keyboard = STDIN_FILENO;
  for (;;) {
    struct pollfd ready[2] = {{panel->line.fd, POLLIN, 0}, {keyboard, POLLIN, 0}};
    size_t length;
    int typed = 0, heard = 0;
    if (poll(ready, 2, rest(panel)) < 0 && errno != EINTR)
      return;
    if (in656_desk_tick(panel->desk, sizeof panel->desk, clock_ms()).lost == 1)
      show_line(day_ms(), WHO, "notes", "the line is lost");
    if (ready[1].revents != 0)
      typed = row_typed(&row, keyboard);
    if (typed == 1)
      take_row(panel, row.text);
    if (typed < 0)
      keyboard = -1; /* poll leaves this one out from now on */
    while (ready[0].revents != 0 && (heard = serial_hear(&panel->line, &length)) == 1)
      if (hear(panel, length) != 0)
        return;
    if (heard < 0)
      return;
  }
}

int main(int argc, char **argv)
{
  struct panel panel;
  int i;
  if (argc < 2) {
    fputs("usage: panel DEVICE [\"B 125 90 120 88\"]...\n", stderr);
    return 2;
  }
  if (!same_edition() || serial_open(&panel.line, argv[1]) != 0)
    return 1;
  in656_desk_start(panel.desk, sizeof panel.desk, LINE);
  for (i = 2; i < argc; i++)
    take_row(&panel, argv[i]);
  run(&panel);
  perror(argv[1]);
  return 1;
}
