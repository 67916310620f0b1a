/* Fochillun in a C program: a proved policy of ANSI INCITS 359-2004, asked by calls; and one member of a group that keeps
 * such a policy alike in several processes.
 *
 * A place holds one policy, or one member, or none. Its holder owns it: any memory of this type, all zeros at first.
 *
 * What the caller owes, for nothing checks this side:
 *   - a place is never copied, and its fields are never read or written, while it is full; `is_full` holds 0 or 1;
 *   - a place is used by one call at a time; with a lock round it any thread may call, and two places
 *     never need a lock;
 *   - a pointer to bytes is never null, also where the length is 0, and points to as many bytes as
 *     the length says, which is at most that of the largest object (PTRDIFF_MAX), and of `out` too these
 *     bytes are initialised; `out`, `written`, `place` and what is read do not overlap;
 *   - no call is made in a signal handler, or in the forked child of a process with threads, and none is
 *     left by a longjmp;
 *   - malloc, realloc and free are those of one allocator, which aligns as the C library does.
 *
 * What each number means, it means in all calls. docs/EMBEDDING.md has the rest.
 */
#ifndef FOCHILLUN_H
#define FOCHILLUN_H

#include <stdbool.h>
#include <stddef.h>
#include <stdint.h>

#ifdef __cplusplus
extern "C" {
#endif

/* All zeros is an empty place: struct policy_place place = {0}; */
struct policy_place {
    void *at;
    bool is_full;
};

/* What a call is answered with. */
enum policy_status {
    POLICY_DONE = 0,

    /* A check, or a listing of subjects, of what is not there: the numbers of these denials. */
    POLICY_NO_SESSION = 10,
    POLICY_NO_OPERATION = 27,
    POLICY_NO_OBJECT = 28,

    POLICY_EMPTY_PLACE = 40,
    POLICY_FULL_PLACE = 41,
    POLICY_SHORT_BUFFER = 42, /* the command was applied, once; policy_answer gives its answer */
    POLICY_NO_MEMORY = 43,    /* nothing has changed: the call can be made again */

    POLICY_GRANTED = 50,
    POLICY_REFUSED = 51,
    POLICY_BAD_NAME = 52, /* one of the texts is no name */

    /* A founding file is refused: the first reason, in the order of the checks. */
    POLICY_FOUNDING_TOO_LONG = 101,
    POLICY_FOUNDING_NOT_TOML = 102,
    POLICY_FOUNDING_BAD_VERSION = 103,
    POLICY_FOUNDING_UNKNOWN_KEY = 104,
    POLICY_FOUNDING_MISSING_KEY = 105,
    POLICY_FOUNDING_WRONG_KIND = 106,
    POLICY_FOUNDING_OUT_OF_RANGE = 107,
    POLICY_FOUNDING_BAD_NAME = 108,
    POLICY_FOUNDING_REPEATED = 109,
    POLICY_FOUNDING_UNKNOWN_NAME = 110,

    /* A command's text is refused. Nothing has changed. */
    POLICY_COMMAND_TOO_LONG = 201,
    POLICY_COMMAND_NOT_JSON = 202,
    POLICY_COMMAND_NOT_OBJECT = 203,
    POLICY_COMMAND_UNKNOWN_WORD = 204,
    POLICY_COMMAND_MISSING_FIELD = 205,
    POLICY_COMMAND_WRONG_KIND = 206,
    POLICY_COMMAND_BAD_NAME = 207,
    POLICY_COMMAND_EXTRA_FIELD = 208
};

/* Founds a policy in an empty place with what a founding file says: its vocabulary, and the kind of its
 * hierarchy. Its group is read, and not used.
 * DONE, FULL_PLACE, NO_MEMORY, or why the file is refused. But for DONE the place is as it was. */
uint32_t policy_open(struct policy_place *place, const uint8_t *founding, size_t founding_length);

/* Applies the command of a JSON object, and writes its answer's text to the front of `out`. An object with
 * the key `command` is a client line, whose member number is read and of no other concern; each other one
 * is the command itself. That a command is denied is an answer too, and DONE. The text's length is written
 * to `written`: 0 where there is none.
 * DONE; SHORT_BUFFER: applied all the same, `out` as it was; and with nothing changed EMPTY_PLACE,
 * NO_MEMORY, or why the text is refused. */
uint32_t policy_apply(struct policy_place *place, const uint8_t *command, size_t command_length, uint8_t *out,
                      size_t out_length, size_t *written);

/* Writes the text of the answer to the last command that was applied, as policy_apply does; an empty one
 * before the first. Changes nothing, and takes no memory.
 * DONE, SHORT_BUFFER, EMPTY_PLACE. */
uint32_t policy_answer(struct policy_place *place, uint8_t *out, size_t out_length, size_t *written);

/* Whether the session may perform the operation on the object. Changes nothing, and takes no memory.
 * GRANTED, REFUSED, NO_SESSION, NO_OPERATION, NO_OBJECT, BAD_NAME, EMPTY_PLACE: only GRANTED grants. */
uint32_t policy_check(struct policy_place *place, const uint8_t *session, size_t session_length,
                      const uint8_t *operation, size_t operation_length, const uint8_t *object,
                      size_t object_length);

/* Writes who may perform the operation on the object to the front of `out`, and the text's length to `written`:
 * {"sessions":["s1"],"users":["ann"]}, each list sorted by bytes. The users are those of whom a review of their
 * permissions lists the two, by a role that they are authorized for; the sessions those for which policy_check
 * grants, by a role that is active in them. Takes time and memory in proportion to the policy. Changes nothing, the
 * last answer neither.
 * The first that applies: EMPTY_PLACE; BAD_NAME; NO_OPERATION; NO_OBJECT; SHORT_BUFFER, `out` as it was; DONE. Or
 * NO_MEMORY. */
uint32_t policy_subjects(struct policy_place *place, const uint8_t *operation, size_t operation_length,
                         const uint8_t *object, size_t object_length, uint8_t *out, size_t out_length,
                         size_t *written);

/* Writes why the command of a JSON object, read as by policy_apply, would be denied, or a check is granted or refused, to the
 * front of `out`, and the text's length to `written`: a JSON object, its keys in the order of their bytes. Of a command that would
 * be denied `denied` is the word of its first failing precondition, `number` its number, and `names` are what makes it fail (`user`,
 * `role`, `session`, `operation`, `object`, `ascendant`, `descendant`, `kind`, `set`, `counted`; of several the first in order).
 * Besides, a breach of separation has `roles`, those that would be authorized or active, and `cardinality`; a Cycle the `chain` of
 * roles from the descendant down to the ascendant; a BadCardinality `size` and `cardinality`. Of any other command `denied` is null.
 * Of a check that is not denied `granted` says whether, and of a granted one `chain` has an active role and the roles from it down to
 * one that is granted the permission. Takes time and memory in proportion to the policy. Changes nothing, the last answer neither.
 * EMPTY_PLACE; why the text is refused; SHORT_BUFFER, `out` as it was; DONE. Or NO_MEMORY. */
uint32_t policy_explain(struct policy_place *place, const uint8_t *command, size_t command_length, uint8_t *out,
                        size_t out_length, size_t *written);

/* Writes the client lines that make this policy, the text that `rbac_monitor dump` writes, to the front of
 * `out`, and its length to `written`. A policy that was just opened with the same founding, to which each
 * line is applied in this order, answers each "Done", and is then the same. Changes nothing, the last answer
 * neither.
 * DONE; SHORT_BUFFER, `out` as it was; EMPTY_PLACE, NO_MEMORY. */
uint32_t policy_dump(struct policy_place *place, uint8_t *out, size_t out_length, size_t *written);

/* Ends the policy, and frees its memory. The place is empty then, and may be opened again.
 * DONE, EMPTY_PLACE. */
uint32_t policy_close(struct policy_place *place);

/* ---- One member of a group
 *
 * A member keeps a policy of its own. It takes commands of its callers and messages of the other members, and delivers what it
 * took in the order of stamps, which is the same at all: docs/EMBEDDING.md, "A member of a group".
 *
 * A step (submit, submit_batch, receive, take_own, deliver) writes no text: it tells a number, and member_message and
 * member_record give the texts, as often as they are asked. So no step is lost for want of room. But for DONE a step has
 * changed nothing.
 *
 * What the caller owes a group, for no call can see it:
 *   - each member is founded with the same founding, and each number once;
 *   - the bytes that a member receives as message `number` of member `from` are the text that member_message of that
 *     member tells of that number;
 *   - a member that is made anew has taken, by member_take_own, all that it ever sent. Where each message is set in the
 *     member's row first, which is kept outside the process and in which what is set stays, and is taken from there
 *     (member_next_*, then member_take_own), what any process told as that member stays right.
 *
 * Then, and this is proved over the bytes of these calls, each member's history is exactly all commands submitted
 * anywhere up to its last stamp, in stamp order, each with the answer that the commands before it give; and of two
 * members' histories one begins the other.
 */

/* All zeros is an empty place: struct member_place place = {0}; */
struct member_place {
    void *at;
    bool is_full;
};

/* What a call on a member is answered with, beside the numbers of policy_status, which mean what they mean there. Those from
 * 201 on are of the text of a command, of commands or of a message: UNKNOWN_WORD of the name of a command alone. */
enum member_status {
    MEMBER_UNKNOWN_MEMBER = 301,   /* the founding's group has no such member */
    MEMBER_BAD_BATCH = 302,        /* a message sends 1 to 64 commands */
    MEMBER_FROM_SELF = 303,        /* a member receives nothing of its own: member_take_own takes it */
    MEMBER_NOT_SENT = 304,         /* no message, or no record, has this number */
    MEMBER_REPEAT = 305,           /* that message was received: `told` has the number of the next one */
    MEMBER_GAP = 306,              /* one before it is missing: `told` has the number of the next one */
    MEMBER_STAMP_NOT_RISING = 307, /* no message of that member's that could follow those before it */
    MEMBER_CLOCK_FULL = 308,
    MEMBER_SENT_FULL = 309,  /* the member has sent as many messages as the founding lets it send */
    MEMBER_BAD_SERIAL = 310, /* not the caller's next one, which is in `told` */
    MEMBER_MESSAGE_TOO_LONG = 311, /* the message's text would have more than 1,048,576 bytes */
    MEMBER_NOT_YET = 312,  /* the place only observes: received once a later message of the member's own row was taken */
    MEMBER_OBSERVES = 313, /* the place only observes, and sends nothing */
    MEMBER_NOT_A_REVIEW = 314 /* the command is neither a review nor a check of access: it would change something */
};

/* Founds the member of this number, from 1 on, in an empty place.
 * DONE, FULL_PLACE, NO_MEMORY, why the file is refused, UNKNOWN_MEMBER. */
uint32_t member_open(struct member_place *place, const uint8_t *founding, size_t founding_length, uint32_t number);

/* Founds the member of this number in an empty place, as one that only observes: a process that shows what the member would
 * show, beside the one that acts, and sends nothing. It takes what stands in the member's row by member_take_own, receives what
 * it need not acknowledge, delivers, and is asked as any other. member_submit, member_submit_batch, member_next_submit and
 * member_next_submit_batch tell OBSERVES there, whatever they are given but an empty place; member_receive and
 * member_next_answer, where they are refused for nothing else, tell NOT_YET of a message that it would have to acknowledge.
 * As member_open. */
uint32_t member_observe(struct member_place *place, const uint8_t *founding, size_t founding_length, uint32_t number);

/* Submits the command of a JSON object as that of a caller, any number, whose commands at this member have the serials 0, 1
 * and so on. `told` has the number of the message that sends it.
 * DONE, EMPTY_PLACE, OBSERVES, NO_MEMORY, why the text is refused, CLOCK_FULL, SENT_FULL, BAD_SERIAL, MESSAGE_TOO_LONG. */
uint32_t member_submit(struct member_place *place, uint32_t caller, uint32_t serial, const uint8_t *command,
                       size_t command_length, uint64_t *told);

/* Submits the commands of a JSON array of 1 to 64 objects together, in one message, of which the first has this serial. As
 * member_submit; and before CLOCK_FULL BAD_BATCH, also where the last serial would pass 4,294,967,295. */
uint32_t member_submit_batch(struct member_place *place, uint32_t caller, uint32_t serial, const uint8_t *commands,
                             size_t commands_length, uint64_t *told);

/* Receives message `number`, from 1 on, of member `from`. `told` has the number of the acknowledgement that was sent, and 0
 * where none is due.
 * DONE, EMPTY_PLACE, NO_MEMORY, why the text is refused, UNKNOWN_MEMBER, FROM_SELF, REPEAT, GAP, STAMP_NOT_RISING, BAD_BATCH,
 * CLOCK_FULL, SENT_FULL, BAD_SERIAL, NOT_YET. */
uint32_t member_receive(struct member_place *place, uint32_t from, uint32_t number, const uint8_t *message,
                        size_t message_length, uint64_t *told);

/* Takes message `number` of the member's own row: one that it sent before it was lost, or that was set there to be taken.
 * `told` has its number.
 * DONE, EMPTY_PLACE, NO_MEMORY, why the text is refused, MESSAGE_TOO_LONG, REPEAT, GAP, STAMP_NOT_RISING, BAD_BATCH,
 * CLOCK_FULL, SENT_FULL, BAD_SERIAL. */
uint32_t member_take_own(struct member_place *place, uint32_t number, const uint8_t *message, size_t message_length,
                         uint64_t *told);

/* Delivers the command that is due, if one is. `told` has the number of its record, and 0 where none is due.
 * DONE, EMPTY_PLACE, NO_MEMORY. */
uint32_t member_deliver(struct member_place *place, uint64_t *told);

/* Each of these writes a text to the front of `out`, and its length to `written`: 0 where there is none. They change nothing.
 * DONE; SHORT_BUFFER, `out` as it was; EMPTY_PLACE, NO_MEMORY; and what stands with each. */

/* The message of this number, from 1 on, that the member sent. NOT_SENT. */
uint32_t member_message(struct member_place *place, size_t number, uint8_t *out, size_t out_length, size_t *written);

/* The record of this number, from 1 on, of the member's history: a command that was delivered, and its answer. NOT_SENT. */
uint32_t member_record(struct member_place *place, size_t number, uint8_t *out, size_t out_length, size_t *written);

/* The message by which member_submit would send this command. Taken by member_take_own it leaves what the submit leaves.
 * As member_submit refuses. */
uint32_t member_next_submit(struct member_place *place, uint32_t caller, uint32_t serial, const uint8_t *command,
                            size_t command_length, uint8_t *out, size_t out_length, size_t *written);

/* As member_next_submit, of commands that are sent together. */
uint32_t member_next_submit_batch(struct member_place *place, uint32_t caller, uint32_t serial, const uint8_t *commands,
                                  size_t commands_length, uint8_t *out, size_t out_length, size_t *written);

/* The acknowledgement that this message wants, to be taken by member_take_own before the message is received, which then
 * sends nothing; no bytes where none is wanted. As member_receive refuses. */
uint32_t member_next_answer(struct member_place *place, uint32_t from, uint32_t number, const uint8_t *message,
                            size_t message_length, uint8_t *out, size_t out_length, size_t *written);

/* The client lines that make the member's policy, as policy_dump writes them. */
uint32_t member_dump(struct member_place *place, uint8_t *out, size_t out_length, size_t *written);

/* The answer that the command of a JSON object, a review or CheckAccess, has by the policy that the member's history left, as
 * policy_apply writes it: a denial too. A review takes time and memory in proportion to the policy; member_check is the
 * quicker question. NOT_A_REVIEW, or why the text is refused. */
uint32_t member_review(struct member_place *place, const uint8_t *command, size_t command_length, uint8_t *out,
                       size_t out_length, size_t *written);

/* Who may perform the operation on the object by the policy that the member's history left, which may be behind that of
 * other members. As policy_subjects. */
uint32_t member_subjects(struct member_place *place, const uint8_t *operation, size_t operation_length,
                         const uint8_t *object, size_t object_length, uint8_t *out, size_t out_length,
                         size_t *written);

/* These take no memory, and change nothing. */

/* How many messages of member `from` were received. DONE, EMPTY_PLACE. */
uint32_t member_read(struct member_place *place, uint32_t from, uint64_t *told);

/* The serial of a caller's next command at this member. DONE, EMPTY_PLACE. */
uint32_t member_next_serial(struct member_place *place, uint32_t caller, uint64_t *told);

/* The least command that is held back: the stamp of its message, its place in that message, from 0 on, and a bit for each
 * member of whom it waits for a message with a greater stamp: 1 for member 1, 2 for member 2, 4 for member 3, and so on.
 * All zeros where nothing is held. */
struct member_waiting {
    uint64_t clock;
    uint32_t member;
    uint32_t place;
    uint32_t awaited;
};

/* DONE, EMPTY_PLACE. */
uint32_t member_waits(struct member_place *place, struct member_waiting *waiting);

/* Whether the session may perform the operation on the object by the policy that the member's history left, which may be
 * behind that of other members. `told` has how many records that history has: member_record of it tells the stamp.
 * As policy_check. */
uint32_t member_check(struct member_place *place, const uint8_t *session, size_t session_length, const uint8_t *operation,
                      size_t operation_length, const uint8_t *object, size_t object_length, uint64_t *told);

/* Ends the member, and frees its memory. The place is empty then. DONE, EMPTY_PLACE. */
uint32_t member_close(struct member_place *place);

/* ---- The version
 *
 * That of this header, and of the library that it came with. */
static inline const char *policy_version(void) { return "0.16.0"; }

/* ---- What a status says
 *
 * A sentence for each number of policy_status and of member_status, "unknown status" for any other. It is not to be freed. */
static inline const char *policy_status_text(uint32_t status) {
    switch (status) {
    case POLICY_DONE: return "it was done";
    case POLICY_NO_SESSION: return "there is no such session";
    case POLICY_NO_OPERATION: return "there is no such operation";
    case POLICY_NO_OBJECT: return "there is no such object";
    case POLICY_EMPTY_PLACE: return "the place is empty";
    case POLICY_FULL_PLACE: return "the place is full";
    case POLICY_SHORT_BUFFER: return "the buffer is too short for the text";
    case POLICY_NO_MEMORY: return "memory ran out, and nothing has changed";
    case POLICY_GRANTED: return "access is granted";
    case POLICY_REFUSED: return "access is refused";
    case POLICY_FOUNDING_TOO_LONG: case POLICY_COMMAND_TOO_LONG: return "the text is too long";
    case POLICY_FOUNDING_NOT_TOML: return "the file is no TOML text";
    case POLICY_FOUNDING_BAD_VERSION: return "`version` is not there, or is not the whole number 1 or 2";
    case POLICY_FOUNDING_UNKNOWN_KEY: return "there is a key that is not known";
    case POLICY_FOUNDING_MISSING_KEY: return "a key that has to be there is not there";
    case POLICY_FOUNDING_WRONG_KIND: case POLICY_COMMAND_WRONG_KIND: return "a value is not of its kind";
    case POLICY_FOUNDING_OUT_OF_RANGE: return "a number or a list is outside its range, or `hierarchy` is no kind of one";
    case POLICY_BAD_NAME: case POLICY_FOUNDING_BAD_NAME: case POLICY_COMMAND_BAD_NAME: return "a text is no name";
    case POLICY_FOUNDING_REPEATED: return "an operation, an object or a permission stands twice";
    case POLICY_FOUNDING_UNKNOWN_NAME: return "a permission speaks of an operation or an object that is not listed";
    case POLICY_COMMAND_NOT_JSON: return "the text is no JSON";
    case POLICY_COMMAND_NOT_OBJECT: return "the value is no object";
    case POLICY_COMMAND_UNKNOWN_WORD: return "the command's name is not known";
    case POLICY_COMMAND_MISSING_FIELD: return "a field is not there";
    case POLICY_COMMAND_EXTRA_FIELD: return "there is a field that does not belong there";
    case MEMBER_UNKNOWN_MEMBER: return "the founding's group has no such member";
    case MEMBER_BAD_BATCH: return "a message sends 1 to 64 commands, each with a serial";
    case MEMBER_FROM_SELF: return "a member receives nothing of its own";
    case MEMBER_NOT_SENT: return "no message, or no record, has this number";
    case MEMBER_REPEAT: return "that message was received";
    case MEMBER_GAP: return "a message before it is missing";
    case MEMBER_STAMP_NOT_RISING: return "the message could not follow those before it";
    case MEMBER_CLOCK_FULL: return "the clock is at its end";
    case MEMBER_SENT_FULL: return "the member has sent as many messages as it may";
    case MEMBER_BAD_SERIAL: return "the serial is not the caller's next one";
    case MEMBER_MESSAGE_TOO_LONG: return "the message's text would be too long";
    case MEMBER_NOT_YET: return "an observer receives it once the member's own row has a later message";
    case MEMBER_OBSERVES: return "an observer sends nothing";
    case MEMBER_NOT_A_REVIEW: return "the command is neither a review nor a check of access";
    default: return "unknown status";
    }
}

#ifdef __cplusplus
}
#endif

#endif
