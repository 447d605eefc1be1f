/*
 * in656.h: telegrams of IN 656 V 1711 (edition 01.02), both ends of a line, and capture logs.
 *
 * Every function takes every input and returns. Bad input gets a numbered refusal, and a refused call changes neither the state nor any output.
 * No function keeps a pointer, allocates memory or uses anything but what is lent to it, so calls on different states may run in parallel.
 *
 * The caller must see to one thing: each pointer is valid for its length, and the lent parts of one call do not overlap.
 * Where a length is 0 the pointer may be null.
 *
 * A state is plain bytes without pointers: it may be copied, moved, stored in a file and taken up again, at any address.
 * No call needs more than IN656_STACK bytes of stack; in656(3) has a table of what each call needs.
 * in656-telegrams(7) has a table of every telegram, its packets and what each value may be.
 */
#ifndef IN656_H
#define IN656_H

#include <stddef.h>
#include <stdint.h>

#ifdef __cplusplus
extern "C" {
#endif

/*
 * The version. The first number is the edition, which the soname carries: libin656.so.1. It changes with any structure, length, constant or
 * call that a program already compiled relies on. The second number changes where calls are added, or a field is filled that was 0 before.
 */
#define IN656_VERSION_MAJOR 1u
#define IN656_VERSION_MINOR 0u
#define IN656_VERSION_PATCH 0u
#define IN656_VERSION (IN656_VERSION_MAJOR * 65536u + IN656_VERSION_MINOR * 256u + IN656_VERSION_PATCH)

/* The library's version, as one number like IN656_VERSION. */
uint32_t in656_version(void);
/*
 * 1 where a program that was compiled with a header of this version may use this library: the same edition, and a second number that the
 * library has reached; else 0. Ask it first: in656_same_edition(IN656_VERSION).
 */
uint32_t in656_same_edition(uint32_t version);

/* The lines. */
#define IN656_LINE_ATC_TC 1u   /* train control unit and train computer */
#define IN656_LINE_ATC_MSR3 2u /* train control unit and cab radio */
#define IN656_LINE_MSR3_TC 3u  /* cab radio and train computer */

/* Lengths in bytes. The functions of the same names below give those of the library. */
#define IN656_LONGEST 66u         /* the longest telegram, and the room that a call of an end needs */
#define IN656_RECORD_LENGTH 64u   /* a record block */
#define IN656_GATHERER_LENGTH 71u /* a gatherer's state */
#define IN656_DESK_LENGTH 653u    /* a desk's state */
#define IN656_MASTER_LENGTH 77u   /* a master's state */
#define IN656_WORDS_LENGTH 96u    /* room for any words, with the 0 behind them */
#define IN656_STACK 8192u         /* the stack that is enough for any call */

/*
 * A record block: its type letter; ten values of four bytes each, the highest byte first, in the order of its packets,
 * 0 after the last; 23 bytes for a text, 0 where the record has none.
 * A value of digits is its number, a value of characters their codes (V: the left one times 256 plus the right one).
 * A block that is handed to a call is refused 12 where it has another length or its type is none; it is refused 13 where a byte stands in a
 * place that its type does not use, or a value is not permitted. A block to be filled is refused 14 where it has another length.
 */
#define IN656_RECORD_VALUES 10u
#define IN656_RECORD_TEXT 23u
#define IN656_RECORD_TYPE_AT 0u
#define IN656_RECORD_VALUES_AT 1u
#define IN656_RECORD_TEXT_AT 41u

/* Timers, in milliseconds. */
#define IN656_T0_LINE_1 20000u           /* how long after a sending a free master polls on line 1 */
#define IN656_T0_LINE_2 5000u            /* on line 2 */
#define IN656_T0_LINE_3 10000u           /* on line 3 */
#define IN656_T0_LINE_3_OPERATION 20000u /* on line 3, while the last A that answered t carried the key position X */
#define IN656_T1 28000u                  /* how long after a handled telegram the desk notes the line lost */
#define IN656_T2 2000u                   /* how long a master waits for an answer */
#define IN656_SENDINGS 3u                /* how often a master sends a telegram before it gives up */
#define IN656_QUEUE_SIZE 8u              /* how many records wait at most in a desk */

/* Key positions of line 3, the characters A, X and Y. X is position Operation. */
#define IN656_KEY_A 65u
#define IN656_KEY_X 88u
#define IN656_KEY_Y 89u

/* Refusals. 0 is none. */
#define IN656_OK 0u
#define IN656_TOO_SHORT 1u     /* under 10 bytes; place 0 */
#define IN656_TOO_LONG 2u      /* over 66 bytes; place 0 */
#define IN656_NO_LF 3u         /* the first byte is not LF; place 0 */
#define IN656_WRONG_COUNT 4u   /* the byte count is not two digits, or not the length less 2; place 1 */
#define IN656_NO_CR 5u         /* the last byte is not CR; its place */
#define IN656_WRONG_SUM 6u     /* the checksum is wrong, or not of 0-9 A-F; place of its first character */
#define IN656_WRONG_NUMBER 7u  /* the number is not 0 or 1; place 4 */
#define IN656_UNKNOWN_TYPE 8u  /* this line has no telegram of this type; place 3 */
#define IN656_OUTSIDE_SET 9u   /* a data byte is outside the character set; its place */
#define IN656_WRONG_FORM 10u   /* the data field has another length (place 5), or a packet letter is wrong; its place */
#define IN656_WRONG_VALUE 11u  /* a value is not permitted; place of its packet's letter */
#define IN656_WRONG_RECORD 12u /* this end does not send this record on this line (in656_write and the calls on blocks: neither end does) */
#define IN656_OUT_OF_RANGE 13u /* a value, a number or the key position is out of its range */
#define IN656_NO_ROOM 14u      /* the output has too little room */
#define IN656_WRONG_STATE 15u  /* there is no such line, or a state is out of its ranges */
#define IN656_NOT_FREE 16u     /* the master is not free: it has not ended its last telegram */
#define IN656_QUEUE_FULL 17u   /* the desk's queue is full: eight records wait */
#define IN656_UNKNOWN_MARK 18u /* a record of a log has an unknown mark; place where the record begins */
#define IN656_WRONG_LENGTH 19u /* its length is over 66, or it is a hit with a length; place where the record begins */
#define IN656_CUT_OFF 20u      /* the log ends inside a record; place where the record begins */

/*
 * What a call answers. A field that a call does not use is 0.
 * The structure keeps this form in every library of this edition. The fields that say 'in this version 0' and the reserved ones are there
 * for later libraries of the edition to fill.
 */
typedef struct in656_result {
  uint32_t refusal;     /* 0, or the call is refused with this number and has changed nothing */
  uint32_t outcome;     /* what the call did: below, by call */
  uint32_t detail;      /* more of the outcome: below, by call */
  uint32_t contents;    /* the refusal of the frame that was heard, wherever it is refused; the call itself is not refused */
  uint64_t place;       /* the place of the refusal, or of the contents' refusal; of a search, where the telegram begins; of a log record, where its bytes begin */
  uint64_t written;     /* how many bytes of the output are written, or how many bytes a telegram, a log record or a packet's value has */
  uint32_t number;      /* 0 or 1: the number of the telegram that was read, or that the desk heard; of a look, the last number taken or the number to send */
  uint32_t count;       /* the master's sending count, 1 to 3; how many records wait; how many packets there are */
  uint32_t lost;        /* 1 where this call of the desk noted the line lost; of a look, 1 where the line is noted lost */
  uint32_t record;      /* 1 where the record block was filled */
  uint32_t sum;         /* in this version 0: of a checksum's refusal, the sum worked out */
  uint32_t found;       /* in this version 0: of a checksum's refusal, the two bytes found, the first times 256 plus the second */
  uint32_t unsent;      /* in this version 0: 1 where the record block was filled with a record that went unsent */
  uint32_t reserved[5]; /* 0 */
} in656_result;

size_t in656_result_size(void);
size_t in656_longest(void);
size_t in656_record_length(void);
size_t in656_gatherer_length(void);
size_t in656_desk_length(void);
size_t in656_master_length(void);

/* Reads a telegram, LF and CR included. record: a block to fill. Refusals: 15, 14 (the block has another length), 1 to 11. Answers number. */
in656_result in656_read(uint32_t line, const uint8_t *frame, size_t frame_length, uint8_t *record, size_t record_length);

/* Writes the telegram of a record with a number to the front of out. Refusals: 15, 12, 13, 14 (the telegram is longer than out). Answers written. */
in656_result in656_write(uint32_t line, const uint8_t *record, size_t record_length, uint32_t number, uint8_t *out, size_t out_length);

/*
 * The packets of telegrams, and the values of record blocks by their packets' letters.
 * Where a type has more than one form, first is the letter of the first packet of the one that is meant; else 0 or any other number.
 * On lines 1 to 3 each type has one form.
 */
#define IN656_BY_MASTER 1u /* outcome of in656_packet: the master sends this type on this line */
#define IN656_BY_SLAVE 2u  /* the slave does */
/*
 * The packet at an index of a type on a line: outcome says who sends the type, detail is the packet's letter, written how many characters
 * its value has, count how many packets there are. Where the index is count or more, outcome is 0 and only count is answered.
 * Refusals: 15 (no such line), 12 (neither end sends this type on this line).
 */
in656_result in656_packet(uint32_t line, uint32_t type, uint32_t first, uint32_t index);
/* Fills a block with a type's record whose values are all 0. Refusals: 15, 14 (the block has another length), 12. Answers record. */
in656_result in656_record(uint32_t line, uint32_t type, uint32_t first, uint8_t *record, size_t record_length);
/*
 * The value of a block by its packet's letter: detail. It looks at the block's type and at this value, at nothing else.
 * Refusals: 15 (no such line), 12 (the block has another length, or neither end sends its type on this line), 10 (the type has no such packet; place 0).
 */
in656_result in656_value(uint32_t line, const uint8_t *record, size_t record_length, uint32_t letter);
/* Puts a value into a block. Whether it is permitted is asked where the record is written, queued, set or offered. Refusals: 15, 12, 10. */
in656_result in656_put_value(uint32_t line, uint8_t *record, size_t record_length, uint32_t letter, uint32_t value);

/*
 * Cutting a stream byte by byte. start fills a state and answers only zeros. byte takes a heard byte, and answers outcome IN656_TELEGRAM
 * where it ends a telegram: the telegram has written bytes, which lie in the state from IN656_GATHERER_TELEGRAM_AT on until the next call.
 * hit says that a byte came with a parity or framing error, and drops the telegram that was being gathered.
 * Refusals: 15 (a state of another length, out of its ranges, or never started: a started one begins with a mark).
 */
#define IN656_TELEGRAM 1u
#define IN656_GATHERER_TELEGRAM_AT 5u
in656_result in656_gatherer_start(uint8_t *state, size_t state_length);
in656_result in656_gatherer_byte(uint8_t *state, size_t state_length, uint8_t byte);
in656_result in656_gatherer_hit(uint8_t *state, size_t state_length);

/* Searches a slice for the next telegram from an index on: outcome IN656_TELEGRAM, place and written where there is one; outcome 0 where none is left. */
in656_result in656_next(const uint8_t *bytes, size_t length, size_t from);

/*
 * A capture log, record by record. A record has a mark, a time in four bytes, the highest first, a length byte, and so many bytes:
 * at most 66, and none in a hit.
 */
#define IN656_LOG_END 0u      /* the log's end */
#define IN656_LOG_MASTER 1u   /* M>, a sending by the master */
#define IN656_LOG_SLAVE 2u    /* S>, a sending by the slave */
#define IN656_LOG_HIT 3u      /* H!, a hit */
#define IN656_LOG_LONGEST 73u /* the longest record, with its mark, time and length */

/*
 * Reads the record that begins at an index: outcome is its mark, detail its time; its bytes lie in the log from place on, and written
 * says how many. The next record begins at place + written. Outcome IN656_LOG_END at the end of the log and past it. Refusals: 18, 19, 20.
 */
in656_result in656_log_read(const uint8_t *log, size_t length, size_t from);
/* Writes a record to the front of out. Refusals: 18, 19, 14 (the record is longer than out). Answers written. */
in656_result in656_log_write(uint32_t mark, uint32_t time, const uint8_t *bytes, size_t length, uint8_t *out, size_t out_length);

/* When something is due. A tick at any earlier time changes nothing and sends nothing, so a program may sleep until then. */
#define IN656_DUE_NEVER 0u /* no tick does anything until another call */
#define IN656_DUE_AFTER 1u /* the tick after detail milliseconds does something; 0 where a tick does it now */

/* The desk, the slave's end. Times are a 32-bit millisecond count that starts again at zero. */
#define IN656_DESK_DONE 1u    /* done */
#define IN656_DESK_SILENT 2u  /* nothing is sent: the frame is refused; contents and place say why */
#define IN656_DESK_FAULT 3u   /* a checksum fault: N with 1 is sent; number, contents and place */
#define IN656_DESK_REPEAT 4u  /* a repeat: the stored answer is sent again; number; contents and place where the contents are refused */
#define IN656_DESK_HANDLED 5u /* handled; detail says with what it is answered; number */
/* detail of a handled telegram: it is answered with */
#define IN656_FROM_REQUEST 1u   /* the record set for r */
#define IN656_FROM_QUEUE 2u     /* the oldest record of the queue */
#define IN656_FROM_KEY 3u       /* A, since no record waits; on line 3 it carries the key position */
#define IN656_FROM_PANEL 4u     /* A, and the record is for the panel: it is in the block */
#define IN656_FROM_CONTENTS 5u  /* N with A, since the contents are refused; contents and place say why */
#define IN656_FROM_DIRECTION 6u /* N with A, since the master does not send this telegram */
#define IN656_FROM_NOTHING 7u   /* N with A, since no record is set for r */

/* Fills a state: the line is lost, nothing waits or is set, the key position is A. Answers IN656_DESK_DONE. Refusals: 15 (no such line, or the state has another length). */
in656_result in656_desk_start(uint8_t *state, size_t state_length, uint32_t line);
/* Time passes. lost is 1 where this noted the line lost. Answers IN656_DESK_DONE. Refusals: 15. */
in656_result in656_desk_tick(uint8_t *state, size_t state_length, uint32_t time);
/*
 * Puts a record at the end of the queue that answers t. Answers IN656_DESK_DONE. Refusals: 15, 12, 13, 17.
 * In this version the block stays as it is; a later library may fill it with a record that goes unsent, and says so in record and unsent.
 */
in656_result in656_desk_queue(uint8_t *state, size_t state_length, uint8_t *record, size_t record_length);
/* Sets the record that answers r. Answers IN656_DESK_DONE. Refusals: 15, 12, 13. */
in656_result in656_desk_set(uint8_t *state, size_t state_length, const uint8_t *record, size_t record_length);
/* Sets the key position (A, X or Y on line 3). Answers IN656_DESK_DONE. Refusals: 15, 12 (on lines 1 and 2), 13. */
in656_result in656_desk_key(uint8_t *state, size_t state_length, uint32_t key);
/*
 * At the end of a shift: empty the queue, and take back the record set for r. What was answered stays: a repeat gets the same answer again.
 * Answer IN656_DESK_DONE. Refusals: 15.
 */
in656_result in656_desk_clear_queue(uint8_t *state, size_t state_length);
in656_result in656_desk_clear_set(uint8_t *state, size_t state_length);
/*
 * Hears a frame and writes the answer to the front of out, to be sent at once. record: a block, filled where the record is for the panel.
 * lost is 1 where this noted the line lost. Refusals: 15, 14 (out under 66 bytes, or the block has another length).
 */
in656_result in656_desk_hear(uint8_t *state, size_t state_length, uint32_t time, const uint8_t *frame, size_t frame_length, uint8_t *out, size_t out_length, uint8_t *record, size_t record_length);
/* When the next tick does something: outcome IN656_DUE_NEVER, or IN656_DUE_AFTER with detail. Refusals: 15. */
in656_result in656_desk_due(const uint8_t *state, size_t state_length, uint32_t time);
/*
 * Looks and changes nothing: lost, number (the last one taken), count (how many records wait), detail (the key position). record: a block,
 * filled where a record is set for r, with that one. Answers IN656_DESK_DONE. Refusals: 15, 14 (the block has another length).
 */
in656_result in656_desk_look(const uint8_t *state, size_t state_length, uint8_t *record, size_t record_length);
/*
 * Looks at the queue: record is filled with the record at an index, 0 for the oldest; count is how many wait. Where the index is count or
 * more, record is 0. Answers IN656_DESK_DONE. Refusals: 15, 14.
 */
in656_result in656_desk_waiting(const uint8_t *state, size_t state_length, uint32_t index, uint8_t *record, size_t record_length);

/* The master, the bench's end. */
#define IN656_MASTER_NOTHING 1u    /* nothing to do */
#define IN656_MASTER_SENT 2u       /* sent; detail says which sending; count */
#define IN656_MASTER_ANSWERED 3u   /* answered; record, count */
#define IN656_MASTER_OTHER_KIND 4u /* an answer of another kind; record, or contents and place; count */
#define IN656_MASTER_GIVEN_UP 5u   /* given up; detail says why; count */
#define IN656_MASTER_IGNORED 6u    /* a heard frame is ignored; detail says why; contents and place where it is refused */
/* detail of a sending */
#define IN656_SENT_OFFERED 1u /* the record that was offered */
#define IN656_SENT_AGAIN 2u   /* the same telegram again */
#define IN656_SENT_POLL 3u    /* a poll */
/* detail of a giving up */
#define IN656_GIVEN_UP_SILENCE 1u  /* no answer came, and the line is noted lost */
#define IN656_GIVEN_UP_REJECTED 2u /* the last sending was answered by N with 1 or 2 */
/* detail of an ignored frame */
#define IN656_IGNORED_FREE 1u         /* the master waits on no telegram */
#define IN656_IGNORED_RUN_OUT 2u      /* T2 has run out */
#define IN656_IGNORED_CONTENTS 3u     /* the frame is refused 1 to 7 */
#define IN656_IGNORED_OTHER_NUMBER 4u /* it has the other number */

/* Fills a state: free, number 0, the line good, T0 running from this time. Answers IN656_MASTER_NOTHING. Refusals: 15 (no such line, or the state has another length). */
in656_result in656_master_start(uint8_t *state, size_t state_length, uint32_t line, uint32_t time);
/* Offers a record: writes its telegram to the front of out, to be sent at once. Refusals: 15, 14 (out under 66 bytes), 16, 12, 13. */
in656_result in656_master_offer(uint8_t *state, size_t state_length, uint32_t time, const uint8_t *record, size_t record_length, uint8_t *out, size_t out_length);
/*
 * Time passes: sends again, polls, gives up, or does nothing. It polls where nothing was sent for T0: on line 1 with r for B after 20 seconds,
 * on line 2 with r for 5 after 5 seconds, on line 3 with t after 10 seconds, or after 20 while the last A that answered t carried X
 * (the driver's key in position Operation). Refusals: 15, 14 (out under 66 bytes).
 */
in656_result in656_master_tick(uint8_t *state, size_t state_length, uint32_t time, uint8_t *out, size_t out_length);
/*
 * Hears a frame; may send again at once. record: a block, filled where the frame is an answer that reads as a record.
 * Refusals: 15, 14 (out under 66 bytes, or the block has another length).
 */
in656_result in656_master_hear(uint8_t *state, size_t state_length, uint32_t time, const uint8_t *frame, size_t frame_length, uint8_t *out, size_t out_length, uint8_t *record, size_t record_length);
/* When the next tick does something: outcome IN656_DUE_AFTER with detail; a master always has something due. Refusals: 15. */
in656_result in656_master_due(const uint8_t *state, size_t state_length, uint32_t time);
/*
 * Looks and changes nothing: outcome, number (the one to send), lost, count (the sendings made of the telegram that it waits on, 0 while free),
 * detail (1 where the last A that answered t said position Operation). record: a block, filled while it waits with the record that it waits on.
 * Refusals: 15, 14 (the block has another length).
 */
#define IN656_MASTER_FREE 1u
#define IN656_MASTER_WAITING 2u
in656_result in656_master_look(const uint8_t *state, size_t state_length, uint8_t *record, size_t record_length);

/*
 * Words for a person: of a refusal (0 to 20), and of an outcome of the desk's or the master's hearing, offer or tick with its detail.
 * They are written to the front of out with a 0 behind them; written counts the words without the 0.
 * Refusals: 13 (no such refusal, or no such outcome and detail), 14 (the words and the 0 are longer than out).
 */
in656_result in656_refusal_words(uint32_t refusal, char *out, size_t out_length);
in656_result in656_desk_words(uint32_t outcome, uint32_t detail, char *out, size_t out_length);
in656_result in656_master_words(uint32_t outcome, uint32_t detail, char *out, size_t out_length);

#ifdef __cplusplus
}
#endif

#endif
