/*
 * bench.c: the train control unit's end of line 1, the master.
 *
 *   bench DEVICE [RECORD]...
 *
 * DEVICE is a serial device, or - for a pseudo-terminal of its own. The RECORDs are sent one after the other, as
 * "r B" (asks for train data), "t t" (asks for what waits), "G 288" (fault code), "F 7123" (position), "c T" (lamps on).
 * After the last RECORD the bench ends, and fails unless each was answered. Without a RECORD it sends the rows that you
 * type, polls when T0 runs out (001 section 3.2.1), and runs until it is interrupted or the line is gone.
 * The first answer after a giving up may be an old one (docs/DEMAND3.md).
 */
#include "serial.h"
#include "show.h"

#include <errno.h>
#include <poll.h>
#include <stdio.h>
#include <unistd.h>

#define LINE IN656_LINE_ATC_TC
#define WHO "bench"

struct bench {
  struct serial line;
  uint32_t sending; /* how long it has been sending, in all */
  int waits;        /* 1 while a telegram is neither answered nor given up */
  int failures;     /* how many records were refused, answered with N or another kind, or given up */
  uint8_t master[IN656_MASTER_LENGTH];
  uint8_t out[IN656_LONGEST], record[IN656_RECORD_LENGTH]; /* what the last call wrote */
};

/* T0 and T2 run from the sent CR (001 sections 3.2.1 and 3.2.3), so the master's clock stands still while bytes are being sent. */
static uint32_t master_ms(const struct bench *bench)
{
  return clock_ms() - bench->sending;
}

/* Sends what a call wrote. 0, or -1 if the line is gone. */
static int send_out(struct bench *bench, size_t length)
{
  uint32_t from = clock_ms();
  int failed = serial_send(&bench->line, bench->out, length);
  bench->sending += clock_ms() - from;
  return failed;
}

/* Says what a call of the master answered, and sends what it wrote; heard is the length of the telegram that it heard, or 0. 0, or -1 if the line is gone. */
static int done(struct bench *bench, in656_result r, size_t heard)
{
  char text[SHOWN];
  if (r.refusal == IN656_OK && r.outcome == IN656_MASTER_NOTHING)
    return 0;
  master_words(text, LINE, r, bench->record);
  if (heard > 0)
    show_telegram(day_ms(), WHO, "hears", serial_telegram(&bench->line), heard, text);
  else if (r.written == 0)
    show_line(day_ms(), WHO, r.refusal == IN656_OK ? "ends" : "typed", text);
  if (r.outcome == IN656_MASTER_SENT)
    bench->waits = 1;
  if (r.outcome == IN656_MASTER_ANSWERED || r.outcome == IN656_MASTER_OTHER_KIND || r.outcome == IN656_MASTER_GIVEN_UP)
    bench->waits = 0;
  if (r.refusal != IN656_OK || r.outcome == IN656_MASTER_OTHER_KIND || r.outcome == IN656_MASTER_GIVEN_UP
      || (r.outcome == IN656_MASTER_ANSWERED && bench->record[IN656_RECORD_TYPE_AT] == 'N'))
    bench->failures++;
  if (r.written == 0)
    return 0;
  if (send_out(bench, (size_t)r.written) != 0)
    return -1;
  show_telegram(day_ms(), WHO, "sent", bench->out, (size_t)r.written, heard == 0 ? text : "");
  return 0;
}

static int offer(struct bench *bench, const char *row)
{
  char text[SHOWN];
  in656_result r;
  if (!record_said(text, LINE, row, bench->record)) {
    show_line(day_ms(), WHO, "typed", text);
    bench->failures++;
    return 0;
  }
  r = in656_master_offer(bench->master, sizeof bench->master, master_ms(bench), bench->record, sizeof bench->record, bench->out, sizeof bench->out);
  return done(bench, r, 0);
}

static int tick(struct bench *bench)
{
  return done(bench, in656_master_tick(bench->master, sizeof bench->master, master_ms(bench), bench->out, sizeof bench->out), 0);
}

static int hear(struct bench *bench, size_t length)
{
  in656_result r = in656_master_hear(bench->master, sizeof bench->master, master_ms(bench), serial_telegram(&bench->line), length, bench->out,
                                     sizeof bench->out, bench->record, sizeof bench->record);
  return done(bench, r, length);
}

/* How long poll may sleep, in milliseconds: until a tick does something. Nothing is being sent meanwhile, so the master's clock runs as any other. */
static int rest(const struct bench *bench)
{
  in656_result due = in656_master_due(bench->master, sizeof bench->master, master_ms(bench));
  return due.outcome == IN656_DUE_AFTER ? (int)due.detail : -1;
}

/* Sleeps until something comes or is due, and takes it. 0, or -1 with errno if the line is gone. */
static int turn(struct bench *bench, struct row *row, int *keyboard)
{
  struct pollfd ready[2] = {{bench->line.fd, POLLIN, 0}, {bench->waits ? -1 : *keyboard, POLLIN, 0}};
  size_t length;
  int typed = 0, heard = 0;
  if (poll(ready, 2, rest(bench)) < 0 && errno != EINTR)
    return -1;
  while (ready[0].revents != 0 && (heard = serial_hear(&bench->line, &length)) == 1)
    if (hear(bench, length) != 0)
      return -1;
  if (heard < 0)
    return -1;
  if (ready[1].revents != 0)
    typed = row_typed(row, *keyboard);
  if (typed == 1 && offer(bench, row->text) != 0)
    return -1;
  if (typed < 0)
    *keyboard = -1; /* poll leaves this one out from now on */
  return tick(bench);
}

/* Runs until each row was sent and ended (0), or the line is gone (-1, with errno). */
static int run(struct bench *bench, char **rows, int count)
{
  struct row row = {"", 0};
  int keyboard = count > 0 ? -1 : STDIN_FILENO, next = 0, failed = 0;
  while (failed == 0 && (bench->waits || next < count || count == 0)) {
    if (!bench->waits && next < count)
      failed = offer(bench, rows[next++]);
    else
      failed = turn(bench, &row, &keyboard);
  }
  return failed;
}

int main(int argc, char **argv)
{
  struct bench bench = {0};
  if (argc < 2) {
    fputs("usage: bench DEVICE [\"t t\"]...\n", stderr);
    return 2;
  }
  if (!same_edition() || serial_open(&bench.line, argv[1]) != 0)
    return 1;
  in656_master_start(bench.master, sizeof bench.master, LINE, master_ms(&bench));
  if (run(&bench, argv + 2, argc - 2) != 0) {
    perror(argv[1]);
    return 1;
  }
  return bench.failures > 0;
}
