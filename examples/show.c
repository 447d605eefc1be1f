#include "show.h"

#include <stdio.h>
#include <string.h>

int same_edition(void)
{
  uint32_t version = in656_version();
  if (in656_same_edition(IN656_VERSION) == 1)
    return 1;
  fprintf(stderr, "the library has version %u.%u, and this program was compiled for %u.%u\n", (unsigned)(version / 65536),
          (unsigned)(version / 256 % 256), IN656_VERSION_MAJOR, IN656_VERSION_MINOR);
  return 0;
}

/* Says which values a type has, and how many a row has. */
static void say_form(char text[SHOWN], uint32_t line, uint8_t type, unsigned values)
{
  char letters[2 * IN656_RECORD_VALUES + 1] = "";
  uint32_t count = in656_packet(line, type, 0, 0).count, i;
  for (i = 0; i < count && i < IN656_RECORD_VALUES; i++) {
    letters[2 * i] = ' ';
    letters[2 * i + 1] = (char)in656_packet(line, type, 0, i).detail;
  }
  snprintf(text, SHOWN, "no record: %c has %u value%s,%s, and this row has %u", type, (unsigned)count, count == 1 ? "" : "s", letters, values);
}

/* The number of a word of a row. 0 if it is too long for one. */
static int number_said(const char *word, size_t length, int digits, uint32_t *number)
{
  uint64_t value = 0;
  size_t i;
  if (length > (digits ? 10u : 4u))
    return 0;
  for (i = 0; i < length; i++)
    value = digits ? value * 10 + (uint64_t)(word[i] - '0') : value * 256 + (uint8_t)word[i];
  *number = (uint32_t)value;
  return value <= UINT32_MAX;
}

int record_said(char text[SHOWN], uint32_t line, const char *row, uint8_t record[IN656_RECORD_LENGTH])
{
  unsigned values = 0;
  uint8_t type;
  in656_result r;
  row += strspn(row, " \t");
  type = (uint8_t)*row;
  if (strcspn(row, " \t") != 1) {
    snprintf(text, SHOWN, "no record: a row is a type of one character, and its values");
    return 0;
  }
  r = in656_record(line, type, 0, record, IN656_RECORD_LENGTH);
  if (r.refusal != IN656_OK) {
    refusal_words(text, r.refusal);
    return 0;
  }
  for (row++; *(row += strspn(row, " \t")) != '\0'; values++) {
    size_t length = strcspn(row, " \t");
    uint32_t value;
    r = in656_packet(line, type, 0, values);
    if (!number_said(row, length, r.written != 1 && strspn(row, "0123456789") >= length, &value)) {
      snprintf(text, SHOWN, "no record: %.*s is too long for a value", (int)(length < 40 ? length : 40), row);
      return 0;
    }
    if (values < r.count)
      in656_put_value(line, record, IN656_RECORD_LENGTH, r.detail, value);
    row += length;
  }
  if (values == in656_packet(line, type, 0, 0).count)
    return 1;
  say_form(text, line, type, values);
  return 0;
}

/* Its telegram has the values as characters; they stand behind the number and before the checksum. */
void record_words(char text[SHOWN], uint32_t line, const uint8_t record[IN656_RECORD_LENGTH])
{
  uint8_t bytes[IN656_LONGEST];
  in656_result r = in656_write(line, record, IN656_RECORD_LENGTH, 0, bytes, sizeof bytes);
  if (r.refusal != IN656_OK)
    refusal_words(text, r.refusal);
  else
    snprintf(text, SHOWN, "%c %.*s", bytes[3], (int)(r.written - 8), (const char *)bytes + 5);
}

void refusal_words(char text[SHOWN], uint32_t refusal)
{
  char words[IN656_WORDS_LENGTH] = "unknown";
  in656_refusal_words(refusal, words, sizeof words);
  snprintf(text, SHOWN, "refused %u, %s", (unsigned)refusal, words);
}

/* Adds why the heard frame was refused, or its record. */
static void add_more(char text[SHOWN], uint32_t line, in656_result r, const uint8_t *record)
{
  size_t length = strlen(text);
  char more[SHOWN];
  if (r.contents != IN656_OK) {
    refusal_words(more, r.contents);
    snprintf(text + length, SHOWN - length, ": %.200s, place %u", more, (unsigned)r.place);
  }
  if (r.record == 1) {
    record_words(more, line, record);
    snprintf(text + length, SHOWN - length, ": %.200s", more);
  }
}

void desk_words(char text[SHOWN], uint32_t line, in656_result r, const uint8_t *record)
{
  char words[IN656_WORDS_LENGTH] = "unknown";
  if (r.refusal != IN656_OK) {
    refusal_words(text, r.refusal);
    return;
  }
  in656_desk_words(r.outcome, r.detail, words, sizeof words);
  snprintf(text, SHOWN, "%s%s", r.lost == 1 ? "the line is noted lost; " : "", words);
  add_more(text, line, r, record);
}

void master_words(char text[SHOWN], uint32_t line, in656_result r, const uint8_t *record)
{
  char words[IN656_WORDS_LENGTH] = "unknown";
  if (r.refusal != IN656_OK) {
    refusal_words(text, r.refusal);
    return;
  }
  in656_master_words(r.outcome, r.detail, words, sizeof words);
  if (r.count > 0)
    snprintf(text, SHOWN, "%s, %s %u", words, r.outcome == IN656_MASTER_SENT ? "sending" : "sendings", (unsigned)r.count);
  else
    snprintf(text, SHOWN, "%s", words);
  add_more(text, line, r, record);
}

void telegram_words(char text[SHOWN], const uint8_t *bytes, size_t length, const char *what)
{
  size_t at = 0, i;
  for (i = 0; i < length && i < IN656_LONGEST; i++) {
    if (bytes[i] == '\n' || bytes[i] == '\r')
      text[at++] = bytes[i] == '\n' ? '<' : '>';
    else if (bytes[i] >= ' ' && bytes[i] <= '~' && strchr("<>=", bytes[i]) == NULL)
      text[at++] = (char)bytes[i];
    else
      at += (size_t)sprintf(text + at, "=%02X", (unsigned)bytes[i]);
  }
  text[at] = '\0';
  if (*what != '\0')
    snprintf(text + at, SHOWN - at, "%*s%s", at < 24 ? (int)(24 - at) : 2, "", what);
}

void line_words(char text[SHOWN], uint32_t ms, const char *who, const char *does, const char *what)
{
  unsigned seconds = (unsigned)(ms / 1000);
  snprintf(text, SHOWN, "%02u:%02u:%02u.%03u  %-5s  %-6s %.440s", seconds / 3600, seconds / 60 % 60, seconds % 60, (unsigned)(ms % 1000), who,
           does, what);
}

void show_line(uint32_t ms, const char *who, const char *does, const char *what)
{
  char text[SHOWN];
  line_words(text, ms, who, does, what);
  puts(text);
  fflush(stdout);
}

void show_telegram(uint32_t ms, const char *who, const char *does, const uint8_t *bytes, size_t length, const char *what)
{
  char text[SHOWN];
  telegram_words(text, bytes, length, what);
  show_line(ms, who, does, text);
}
