/* Reading and writing SBE messages from C, with the library of the crate sbe_c.
 *
 * Link with libsbe_c.a, and with an archive that defines rattle_alloc, rattle_realloc and rattle_dealloc over malloc,
 * realloc and free (the toolchain's liblibc_c.a).
 *
 * What each call answers is proved of the library, for a caller that keeps to this file. What no proof sees is a
 * caller that doesn't. These are the ways to misuse the calls:
 *
 * - a struct sbe_schema that was not set to zero before its first sbe_open, or whose bytes were changed;
 * - a copy of a struct sbe_schema: close one and use the other, and the memory is used after it was freed. Pass its
 *   address instead;
 * - one schema in two calls at the same time, from two threads. A schema for each thread is safe;
 * - a length above that of its buffer, a `bool` that is neither 0 nor 1, a buffer that overlaps another one, the
 *   schema or the report of the same call, or one that another thread changes meanwhile. A null pointer, also with the
 *   length 0;
 * - a call from a signal handler, or in the forked child of a process with threads;
 * - a malloc, realloc and free that don't belong together.
 *
 * A schema that isn't closed leaks its memory. Calls allocate, and may wait only as malloc does. */
#ifndef SBE_H
#define SBE_H

#include <stdbool.h>
#include <stddef.h>
#include <stdint.h>

#ifdef __cplusplus
extern "C" {
#endif

/* What a call answers. */
enum sbe_answer {
    SBE_DONE = 0,   /* it is done */
    SBE_CLOSED = 1, /* the schema isn't open */
    SBE_MEMORY = 2, /* out of memory */
    SBE_FILE = 3,   /* the bytes don't hold the elements of a schema: S<code>, at the path */
    SBE_RULE = 4,   /* the schema breaks a rule: C<code>, at the path */
    SBE_BODY = 5,   /* no message of the schema lies in the body: F<code>, at the offset */
    SBE_ROOM = 6,   /* the buffer is too small: `length` says how much is needed */
    SBE_ABSENT = 7, /* there is no such part */
    SBE_LINE = 8,   /* the line isn't a message of the schema: J<code>, at the path */
    SBE_MISFIT = 9  /* the message has no body that the buffer has room for: N<code>, at the path */
};

/* What a call reports with its answer. Only the members that are named for an answer are set. */
struct sbe_report {
    uint32_t code;  /* the number in the code of a refusal, such as 2 in F02; or the state of a field */
    size_t offset;  /* the offset of a fault from the body's first byte, in bytes */
    size_t length;  /* the length of a text in bytes, or how many numbers; even if the buffer has less room */
};

/* An open or closed schema. Set it to zero before its first use: `struct sbe_schema schema = {0};`. */
struct sbe_schema {
    void *owned;
    bool is_open;
};

/* Opens the schema of a file in JSON (`file_length` bytes), as tools/sbe-json makes them. What the schema owned before
 * is freed. All memory that a schema needs is allocated here.
 *
 * SBE_DONE: the schema is open. Any other answer leaves it closed.
 * SBE_FILE, SBE_RULE: the first fault, with `code` and `length`; the first `path_length` bytes of its path are in
 * `path`.
 * SBE_MEMORY. */
uint32_t sbe_open(struct sbe_schema *schema, const uint8_t *file, size_t file_length, uint8_t *path,
                  size_t path_length, struct sbe_report *report);

/* Closes a schema, and frees what it owns. A closed one stays closed. */
void sbe_close(struct sbe_schema *schema);

/* Writes the line of JSON of the message that lies in a body (without the frame, and without a line end) into `line`.
 *
 * SBE_DONE: the line is in the first `length` bytes.
 * SBE_ROOM: the line has `length` bytes, and the first `line_length` are in `line`.
 * SBE_BODY: no message of the schema lies in the body; `code` and `offset` of its first fault.
 * SBE_MEMORY, SBE_CLOSED. */
uint32_t sbe_dump(struct sbe_schema *schema, const uint8_t *body, size_t body_length, uint8_t *line,
                  size_t line_length, struct sbe_report *report);

/* Writes the canonical body of the message that a line of JSON holds into `body`.
 *
 * SBE_DONE: the body is the first `length` bytes.
 * SBE_LINE: the line isn't a message of the schema; `code` and `length` of its first refusal, and the first
 * `path_length` bytes of its path are in `path`.
 * SBE_MISFIT: the message has no canonical body of at most `body_length` bytes; `code` and `length` of its first
 * misfit, and its path in the same way. The code 8 is lack of room.
 * SBE_MEMORY, SBE_CLOSED. */
uint32_t sbe_build(struct sbe_schema *schema, const uint8_t *line, size_t line_length, uint8_t *body,
                   size_t body_length, uint8_t *path, size_t path_length, struct sbe_report *report);

/* The message of a body: its template, counted from 0 in the schema's order, and the version in its header. */
struct sbe_message {
    size_t message;
    uint32_t version;
};

/* Validates a body (without the frame).
 *
 * SBE_DONE: a message of the schema lies in the body, and `message` is it.
 * SBE_BODY: none does; `code`, `offset` and `length` of the first fault, and the first `path_length` bytes of its path
 * are in `path`.
 * SBE_MEMORY (only with a fault), SBE_CLOSED. */
uint32_t sbe_validate(struct sbe_schema *schema, const uint8_t *body, size_t body_length, struct sbe_message *message,
                      uint8_t *path, size_t path_length, struct sbe_report *report);

/* What sbe_find_part looks for. */
enum sbe_sort { SBE_MESSAGE = 0, SBE_FIELD = 1, SBE_GROUP = 2, SBE_DATA = 3 };

/* A part of a schema: its number among those of its sort, counted from 0 in the schema's order, and a level. The level
 * of a message is that of its root, and the level of a group that of its entries; a field and data have the level that
 * they are in. */
struct sbe_part {
    size_t number;
    size_t level;
};

/* Finds a message by its name, or a field, a group or data of a level. `level` is that of an earlier call, and any
 * number for a message. A call reads all names of the schema, so find each part once, at the start.
 *
 * SBE_DONE: it is `part`.
 * SBE_ABSENT: there is none of this name.
 * SBE_MEMORY, SBE_CLOSED. */
uint32_t sbe_find_part(struct sbe_schema *schema, uint32_t sort, size_t level, const uint8_t *name,
                       size_t name_length, struct sbe_part *part);

/* A number: its sign, and its size as high * 2^64 + low. The integers of SBE have at most 64 bits, so `high` is 0. */
struct sbe_number {
    bool is_there; /* false: the field is null, absent at the message's version, a constant, or no number */
    bool is_negative;
    uint64_t high;
    uint64_t low;
};

/* A step from a block to an entry: a group of the block, and an entry of that group. Each is counted from 0. */
struct sbe_step {
    size_t group;
    size_t entry;
};

/* A field of a block, and a member of it. Each is counted from 0, in the schema's order. `member` is ignored if
 * the field isn't a composite with a value. */
struct sbe_field {
    size_t field;
    size_t member;
};

/* Reads the number of a field in the message that lies in a body. The `steps` lead from the message's root to the
 * entry that has the field; without a step it is a field of the root.
 *
 * SBE_DONE: it is `number`, or there is none.
 * SBE_BODY: no message of the schema lies in the body; `code` and `offset` of its first fault.
 * SBE_CLOSED. */
uint32_t sbe_number_at(struct sbe_schema *schema, const uint8_t *body, size_t body_length,
                       const struct sbe_step *steps, size_t steps_length, const struct sbe_field *field,
                       struct sbe_number *number, struct sbe_report *report);

/* The state of a field. */
enum sbe_state {
    SBE_HERE = 0,     /* it has a value */
    SBE_NULL = 1,     /* it is null */
    SBE_TOO_NEW = 2,  /* the message's version doesn't have it */
    SBE_CONSTANT = 3  /* the schema has its value */
};

/* Reports the state of a field in the message that lies in a body.
 *
 * SBE_DONE: it is `code`.
 * SBE_ABSENT: the message has no such entry, or the schema no such field.
 * SBE_BODY: as in sbe_number_at.
 * SBE_CLOSED. */
uint32_t sbe_state_at(struct sbe_schema *schema, const uint8_t *body, size_t body_length,
                      const struct sbe_step *steps, size_t steps_length, const struct sbe_field *field,
                      struct sbe_report *report);

/* Writes the text of a field in the message that lies in a body into `text`, without what is after its first 00.
 *
 * SBE_DONE: it is the first `length` bytes.
 * SBE_ROOM: it has `length` bytes, and the first `text_length` are in `text`.
 * SBE_ABSENT: the field has no text: it is null, it is of another kind, or there is no such field.
 * SBE_BODY: as in sbe_number_at.
 * SBE_CLOSED. */
uint32_t sbe_text_at(struct sbe_schema *schema, const uint8_t *body, size_t body_length, const struct sbe_step *steps,
                     size_t steps_length, const struct sbe_field *field, uint8_t *text, size_t text_length,
                     struct sbe_report *report);

/* Writes the bytes of a data part in the message that lies in a body into `bytes`. `part` is counted from 0 among the
 * data of the block to which the steps lead.
 *
 * SBE_DONE, SBE_ROOM, SBE_BODY, SBE_CLOSED: as in sbe_text_at.
 * SBE_ABSENT: the message's version doesn't have it, or there is no such part. */
uint32_t sbe_data_at(struct sbe_schema *schema, const uint8_t *body, size_t body_length, const struct sbe_step *steps,
                     size_t steps_length, size_t part, uint8_t *bytes, size_t bytes_length,
                     struct sbe_report *report);

/* Where numbers are: a field of the entries of a group in the root of a message. Each is counted from 0, in the
 * schema's order. */
struct sbe_place {
    size_t message;
    size_t group;
    size_t field;
};

/* Finds a field of the entries of a group by three names: of the message, of the group in its root, and of the field.
 * A call reads all names of the schema, so find each field once, at the start.
 *
 * SBE_DONE: the numbers of the three are in `place`.
 * SBE_ABSENT: one of the three isn't found.
 * SBE_MEMORY, SBE_CLOSED. */
uint32_t sbe_find(struct sbe_schema *schema, const uint8_t *message, size_t message_length, const uint8_t *group,
                  size_t group_length, const uint8_t *field, size_t field_length, struct sbe_place *place);

/* Writes the numbers of a field of a group's entries into `numbers`, which has room for `room` of them: for each entry
 * of the message that lies in a body, in order, the number of the field, or of its first member where it is a
 * composite. A message of another template has none, and so has a place that the message doesn't have.
 *
 * SBE_DONE: the first `length` numbers are those of the entries.
 * SBE_ROOM: there are `length` entries, and the numbers of the first `room` are written.
 * SBE_BODY: no message of the schema lies in the body; `code` and `offset` of its first fault.
 * SBE_MEMORY, SBE_CLOSED. */
uint32_t sbe_numbers(struct sbe_schema *schema, const uint8_t *body, size_t body_length,
                     const struct sbe_place *place, struct sbe_number *numbers, size_t room,
                     struct sbe_report *report);

#ifdef __cplusplus
}
#endif

#endif
