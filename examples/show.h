/* show.h: records, telegrams and what the two ends do, as lines that a person reads and types. */
#ifndef SHOW_H
#define SHOW_H

#include <in656.h>

/* Room for any text below. */
#define SHOWN 480

/* 1 if this program may use the library; else it says on standard error why not, and answers 0. */
int same_edition(void);

/*
 * The record block of a row of this line, as "B 125 90 120 88" or "r B": its type, then a value for each of its packets.
 * A word of digits is its number; any other word, and the value of a packet of one character, is its characters' codes.
 * 1; or 0, and then text says why the row is no record. The library decides later whether the values are permitted.
 */
int record_said(char text[SHOWN], uint32_t line, const char *row, uint8_t record[IN656_RECORD_LENGTH]);

/* A record as its type and the data field of its telegram. */
void record_words(char text[SHOWN], uint32_t line, const uint8_t record[IN656_RECORD_LENGTH]);

/* A refusal as its number and the library's words. */
void refusal_words(char text[SHOWN], uint32_t refusal);

/* What a call of the desk or of the master did; the record where the call filled one. */
void desk_words(char text[SHOWN], uint32_t line, in656_result r, const uint8_t *record);
void master_words(char text[SHOWN], uint32_t line, in656_result r, const uint8_t *record);

/* A telegram with < for LF and > for CR, and what came of it. */
void telegram_words(char text[SHOWN], const uint8_t *bytes, size_t length, const char *what);

/* A line: the time of day, who does what, and more of it. */
void line_words(char text[SHOWN], uint32_t ms, const char *who, const char *does, const char *what);

/* Print a line, and a line about a telegram. */
void show_line(uint32_t ms, const char *who, const char *does, const char *what);
void show_telegram(uint32_t ms, const char *who, const char *does, const uint8_t *bytes, size_t length, const char *what);

#endif
