/*
 * try.c: runs the panel and the bench against each other at the line's speed, and loses the first answer on the way.
 *
 *   try PANEL BENCH
 *
 * Each program has a pseudo-terminal, and this one carries the bytes between the two. The bench asks for what waits:
 * its telegram is answered, the answer is lost, T2 runs out, and the telegram that it sends again gets the same answer.
 * What the two programs print is printed in the order of its times.
 */
#include "serial.h"
#include "show.h"

#include <errno.h>
#include <fcntl.h>
#include <poll.h>
#include <signal.h>
#include <stdio.h>
#include <stdlib.h>
#include <string.h>
#include <sys/wait.h>
#include <time.h>
#include <unistd.h>

#define LONGEST_MS 30000
#define DAY_MS (24u * 3600 * 1000)
#define HELD 32      /* how many lines are held back at most, */
#define HELD_MS 200u /* and for how long: an earlier one may still come */

/* A program that is tried. */
struct program {
  struct serial line; /* the near end of its line */
  pid_t child;
  int said;       /* where its output is read, -1 after its end */
  struct row row; /* a line of it that is being read */
};

struct tried {
  uint32_t start; /* as time of day */
  struct program panel, bench;
  char held[HELD][SHOWN]; /* the lines that are not yet printed, in the order of their times */
  uint32_t times[HELD];   /* their times, from the start on */
  size_t count;
  int answers; /* telegrams that the panel has sent to their end */
  int arrived; /* records of train data that the bench says were answered */
};

/* How long after the start a time of day is. */
static uint32_t since(const struct tried *tried, uint32_t day)
{
  return (day + DAY_MS - tried->start) % DAY_MS;
}

/* Prints the lines that are held, up to a time from the start on. */
static void print_until(struct tried *tried, uint32_t time)
{
  size_t printed = 0, i;
  while (printed < tried->count && tried->times[printed] <= time)
    puts(tried->held[printed++]);
  fflush(stdout);
  for (i = printed; i < tried->count; i++) {
    memcpy(tried->held[i - printed], tried->held[i], SHOWN);
    tried->times[i - printed] = tried->times[i];
  }
  tried->count -= printed;
}

/* Holds a line back, behind those of its time and earlier. Its time stands at its front, as line_words writes it. */
static void hold(struct tried *tried, const char *text)
{
  unsigned hour, minute, second, ms;
  uint32_t time = day_ms();
  size_t at;
  if (sscanf(text, "%2u:%2u:%2u.%3u", &hour, &minute, &second, &ms) == 4)
    time = ((hour * 60 + minute) * 60 + second) * 1000 + ms;
  time = since(tried, time);
  if (tried->count == HELD)
    print_until(tried, tried->times[0]);
  for (at = tried->count++; at > 0 && tried->times[at - 1] > time; at--) {
    memcpy(tried->held[at], tried->held[at - 1], SHOWN);
    tried->times[at] = tried->times[at - 1];
  }
  snprintf(tried->held[at], SHOWN, "%s", text);
  tried->times[at] = time;
}

static int open_pipe(int ends[2])
{
  return pipe(ends) == 0 && fcntl(ends[0], F_SETFD, FD_CLOEXEC) == 0 && fcntl(ends[1], F_SETFD, FD_CLOEXEC) == 0 ? 0 : -1;
}

/* Starts a program with its device and its records. 0; or -1 where it does not run, and then standard error says why. */
static int start(struct program *program, char *path, char *const records[])
{
  char *arguments[8] = {path, ptsname(program->line.fd)};
  int printed[2], failed[2], why = 0;
  size_t i;
  for (i = 0; i < 5 && records[i] != NULL; i++)
    arguments[2 + i] = records[i];
  if (open_pipe(printed) != 0 || open_pipe(failed) != 0) {
    perror("pipe");
    return -1;
  }
  program->child = fork();
  if (program->child == 0) {
    int nothing = open("/dev/null", O_RDONLY);
    if (nothing >= 0 && dup2(nothing, STDIN_FILENO) >= 0 && dup2(printed[1], STDOUT_FILENO) >= 0)
      execv(path, arguments);
    why = errno;
    _exit(write(failed[1], &why, sizeof why) > 0 ? 127 : 126);
  }
  close(printed[1]);
  close(failed[1]);
  program->said = printed[0];
  /* the pipe closes without a word where the program runs */
  if (program->child > 0 && read(failed[0], &why, sizeof why) <= 0) {
    close(failed[0]);
    return 0;
  }
  fprintf(stderr, "try: %s: %s\n", path, strerror(program->child < 0 ? errno : why));
  return -1;
}

/* A character has 11 bits (001 section 10.2). */
static void wait_for_character(void)
{
  struct timespec character = {0, 11 * (1000000000L / 1200)};
  nanosleep(&character, NULL);
}

/* Carries a byte from one end to the other. The panel's bytes are lost until its first telegram has ended. */
static void carry(struct tried *tried, struct serial *from, struct serial *to)
{
  char words[SHOWN], text[SHOWN];
  uint8_t byte;
  size_t ended;
  int lost;
  if (read(from->fd, &byte, 1) != 1)
    return;
  wait_for_character();
  ended = serial_byte(from, byte);
  lost = from == &tried->panel.line && tried->answers == 0;
  if (!lost)
    serial_send(to, &byte, 1);
  if (lost && ended > 0) {
    telegram_words(words, serial_telegram(from), ended, "");
    line_words(text, day_ms(), "line", "loses", words);
    hold(tried, text);
  }
  if (from == &tried->panel.line && ended > 0)
    tried->answers++;
}

/* Takes what a program has printed, and counts the train data that arrives at the bench. */
static void take_lines(struct tried *tried, struct program *program)
{
  struct pollfd more = {program->said, POLLIN, 0};
  while (program->said >= 0 && poll(&more, 1, 0) > 0) {
    int typed = row_typed(&program->row, program->said);
    if (typed < 0)
      program->said = -1;
    if (typed != 1)
      continue;
    hold(tried, program->row.text);
    if (program == &tried->bench && strstr(program->row.text, "answered") != NULL && strstr(program->row.text, ": B ") != NULL)
      tried->arrived++;
  }
}

/* Runs until one of the two ends. */
static void run(struct tried *tried)
{
  uint32_t now;
  while (tried->bench.said >= 0 && tried->panel.said >= 0 && (now = since(tried, day_ms())) < LONGEST_MS) {
    struct pollfd ready[4] = {{tried->panel.line.fd, POLLIN, 0},
                              {tried->bench.line.fd, POLLIN, 0},
                              {tried->panel.said, POLLIN, 0},
                              {tried->bench.said, POLLIN, 0}};
    if (now > HELD_MS)
      print_until(tried, now - HELD_MS);
    if (poll(ready, 4, 50) < 0 && errno != EINTR)
      return;
    if (ready[0].revents != 0)
      carry(tried, &tried->panel.line, &tried->bench.line);
    if (ready[1].revents != 0)
      carry(tried, &tried->bench.line, &tried->panel.line);
    take_lines(tried, &tried->panel);
    take_lines(tried, &tried->bench);
  }
}

/* Ends a program if it still runs, takes its last lines, and answers whether it had ended well by itself. */
static int ended_well(struct tried *tried, struct program *program)
{
  int status = 1, well;
  if (program->child <= 0)
    return 0;
  kill(program->child, SIGTERM);
  well = waitpid(program->child, &status, 0) == program->child && WIFEXITED(status) && WEXITSTATUS(status) == 0;
  take_lines(tried, program);
  return well;
}

int main(int argc, char **argv)
{
  char data[] = "B 125 90 120 88", ask[] = "t t", fault[] = "G 288";
  char *const waiting[] = {data, NULL}, *const asked[] = {ask, ask, fault, NULL};
  struct tried tried = {0};
  int started, well;
  if (argc != 3) {
    fputs("usage: try PANEL BENCH\n", stderr);
    return 2;
  }
  tried.start = day_ms();
  if (serial_open(&tried.panel.line, "-") != 0 || serial_open(&tried.bench.line, "-") != 0)
    return 1;
  started = start(&tried.panel, argv[1], waiting) == 0;
  if (started) {
    struct pollfd first = {tried.panel.said, POLLIN, 0};
    poll(&first, 1, 2000); /* the panel opens its line first, and says then what it queues */
    started = start(&tried.bench, argv[2], asked) == 0;
  }
  if (started)
    run(&tried);
  well = ended_well(&tried, &tried.bench);
  ended_well(&tried, &tried.panel);
  print_until(&tried, UINT32_MAX);
  if (!started)
    return 1;
  if (!well || tried.arrived != 1 || tried.answers < 4) {
    printf("try: FAILED: the train data arrived %d times, the bench ended %s\n", tried.arrived, well ? "well" : "badly");
    return 1;
  }
  printf("try: well: the first answer was lost, and the train data arrived once\n");
  return 0;
}
