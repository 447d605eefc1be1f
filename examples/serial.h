/* serial.h: a serial line as 001 section 10.2 has it: opening it, sending on it, and cutting what is heard into telegrams. */
#ifndef SERIAL_H
#define SERIAL_H

#include <in656.h>

struct serial {
  int fd;
  int marks;  /* 1 where the device marks a byte that came with an error */
  int marked; /* how many bytes of such a mark were read */
  uint8_t gatherer[IN656_GATHERER_LENGTH];
};

/*
 * Opens a device by its name. "-" opens a pseudo-terminal and says the name of its far end, for the other program.
 * 0; or -1, and then standard error says what failed.
 */
int serial_open(struct serial *line, const char *name);

/* Sends bytes and waits until the last one is sent. 0, or -1 with errno. */
int serial_send(struct serial *line, const uint8_t *bytes, size_t length);

/* Takes one byte as the device gives it. Answers the length of the telegram that it ends, or 0. */
size_t serial_byte(struct serial *line, uint8_t byte);

/* Takes the bytes that have come, up to the end of a telegram: 1 with its length, 0 if no telegram ended, -1 with errno if the line is gone. */
int serial_hear(struct serial *line, size_t *length);

/* The telegram that ended last, until the next byte is taken. */
const uint8_t *serial_telegram(const struct serial *line);

/* A row being typed; what does not fit is dropped. */
struct row {
  char text[480];
  size_t length;
};

/* Takes a character from the keyboard: 1 if it ends a row, which then stands in text until the next one; else 0; -1 at the end of input. */
int row_typed(struct row *row, int fd);

/* The milliseconds since midnight, for what is printed. */
uint32_t day_ms(void);

/* The milliseconds of a clock that nobody sets. It starts again at zero, as the library's times do. */
uint32_t clock_ms(void);

#endif
