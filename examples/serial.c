#include "serial.h"

#include <errno.h>
#include <fcntl.h>
#include <poll.h>
#include <stdio.h>
#include <stdlib.h>
#include <string.h>
#include <termios.h>
#include <time.h>
#include <unistd.h>

/*
 * 1200 baud, 8 data bits, odd parity, 1 stop bit (001 section 10.2). PARMRK marks a byte that came with an error.
 * 0; 1 if the device has no parity; -1 with errno.
 */
static int set_line(int fd)
{
  struct termios set;
  if (tcgetattr(fd, &set) != 0)
    return -1;
  set.c_iflag = INPCK | PARMRK;
  set.c_oflag = 0;
  set.c_lflag = 0;
  set.c_cflag = CS8 | PARENB | PARODD | CREAD | CLOCAL;
  set.c_cc[VMIN] = 1;
  set.c_cc[VTIME] = 0;
  if (cfsetispeed(&set, B1200) != 0 || cfsetospeed(&set, B1200) != 0)
    return -1;
  /* tcsetattr succeeds if it could set anything, and may answer EINVAL if there was nothing left to set: so look at what is set now */
  if ((tcsetattr(fd, TCSAFLUSH, &set) != 0 && errno != EINVAL) || tcgetattr(fd, &set) != 0)
    return -1;
  if (cfgetispeed(&set) != B1200 || cfgetospeed(&set) != B1200 || (set.c_iflag & PARMRK) == 0) {
    errno = ENOTSUP;
    return -1;
  }
  return (set.c_cflag & PARENB) == 0 ? 1 : 0;
}

/* Opens a pseudo-terminal. Its far end stays open here too, so that the other program may come and go. */
static int open_pair(void)
{
  int fd = posix_openpt(O_RDWR | O_NOCTTY);
  int far_end;
  const char *name;
  if (fd < 0)
    return -1;
  if (grantpt(fd) != 0 || unlockpt(fd) != 0 || (name = ptsname(fd)) == NULL
      || (far_end = open(name, O_RDWR | O_NOCTTY | O_CLOEXEC)) < 0 || set_line(far_end) < 0
      || fcntl(fd, F_SETFD, FD_CLOEXEC) != 0 || fcntl(fd, F_SETFL, O_NONBLOCK) != 0) {
    close(fd);
    return -1;
  }
  printf("the far end is %s\n", name);
  fflush(stdout);
  return fd;
}

int serial_open(struct serial *line, const char *name)
{
  int paired = strcmp(name, "-") == 0, set = 0;
  memset(line, 0, sizeof *line);
  line->fd = paired ? open_pair() : open(name, O_RDWR | O_NOCTTY | O_NONBLOCK);
  if (line->fd < 0 || (!paired && (set = set_line(line->fd)) < 0)) {
    perror(name);
    if (line->fd >= 0)
      close(line->fd);
    return -1;
  }
  if (set == 1)
    fprintf(stderr, "note: %s has no parity; a pseudo-terminal has none\n", name);
  line->marks = !paired; /* the near end of a pseudo-terminal hears bytes as they are */
  in656_gatherer_start(line->gatherer, sizeof line->gatherer);
  return 0;
}

int serial_send(struct serial *line, const uint8_t *bytes, size_t length)
{
  while (length > 0) {
    ssize_t sent = write(line->fd, bytes, length);
    if (sent > 0) {
      bytes += sent;
      length -= (size_t)sent;
    } else if (sent < 0 && errno == EAGAIN) {
      struct pollfd room = {line->fd, POLLOUT, 0};
      if (poll(&room, 1, 2000) == 0) {
        errno = ETIMEDOUT;
        return -1;
      }
    } else if (sent < 0 && errno != EINTR) {
      return -1;
    }
  }
  return tcdrain(line->fd);
}

/* With PARMRK (termios) a byte that came with an error is FF 00 and the byte: a hit. A good byte FF is FF FF. */
size_t serial_byte(struct serial *line, uint8_t byte)
{
  int marked = line->marked;
  in656_result r;
  line->marked = 0;
  if (line->marks && ((marked == 0 && byte == 0xFF) || (marked == 1 && byte == 0))) {
    line->marked = marked + 1;
    return 0;
  }
  if (marked == 2)
    r = in656_gatherer_hit(line->gatherer, sizeof line->gatherer);
  else
    r = in656_gatherer_byte(line->gatherer, sizeof line->gatherer, byte);
  return r.outcome == IN656_TELEGRAM ? (size_t)r.written : 0;
}

int serial_hear(struct serial *line, size_t *length)
{
  for (;;) {
    uint8_t byte;
    ssize_t got = read(line->fd, &byte, 1);
    if (got < 0 && (errno == EAGAIN || errno == EINTR))
      return 0;
    if (got == 0)
      errno = EIO; /* the device hung up */
    if (got <= 0)
      return -1;
    *length = serial_byte(line, byte);
    if (*length > 0)
      return 1;
  }
}

const uint8_t *serial_telegram(const struct serial *line)
{
  return line->gatherer + IN656_GATHERER_TELEGRAM_AT;
}

int row_typed(struct row *row, int fd)
{
  char c;
  ssize_t got = read(fd, &c, 1);
  if (got < 0 && (errno == EAGAIN || errno == EINTR))
    return 0;
  if (got <= 0)
    return -1;
  if (c == '\n') {
    row->text[row->length] = '\0';
    row->length = 0;
    return 1;
  }
  if (row->length + 1 < sizeof row->text)
    row->text[row->length++] = c;
  return 0;
}

uint32_t day_ms(void)
{
  struct timespec now;
  struct tm local;
  clock_gettime(CLOCK_REALTIME, &now);
  if (localtime_r(&now.tv_sec, &local) == NULL)
    return 0;
  return (uint32_t)((local.tm_hour * 60 + local.tm_min) * 60 + local.tm_sec) * 1000 + (uint32_t)(now.tv_nsec / 1000000);
}

uint32_t clock_ms(void)
{
  struct timespec now;
  clock_gettime(CLOCK_MONOTONIC, &now);
  return (uint32_t)((uint64_t)now.tv_sec * 1000 + (uint64_t)now.tv_nsec / 1000000);
}
