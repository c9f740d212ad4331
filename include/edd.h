/*
 * edd.h: device descriptions in a communicator, for C99 and later and for C++.
 *
 * An image is what `edd compile` makes of a description. This library loads one from bytes that you
 * have, in flash or in memory, and then says what its items are, what an attribute is under the values
 * that a device has, and what a method does. It keeps nothing: all that it knows is in the bytes and in
 * structs of yours. docs/EMBEDDING.md is the way in; docs/IMAGE.md says what an image is.
 *
 * Every call answers a status: EDD_OK, or a number that says why it did not do what was asked, and then
 * nothing that you passed has changed, but that `given` may have a number that is said with the call, as
 * how much room edd_attribute needs.
 *
 * What you owe, and nothing else is asked of you:
 *  - A pointer is to as many elements as its length says. With a length of 0 it may be any pointer but
 *    a null one. The other pointers are to a struct of the type that is named.
 *  - The bytes stay as they are from edd_load on, as long as you use the edd_image that it wrote; each
 *    call is given both. The calls look whether the numbers of the edd_image are those of the bytes' header and
 *    whether the length is that of the image, and answer EDD_OTHER_IMAGE where they are not. They do not look at
 *    all of the bytes again.
 *  - What a call writes to does not lie in what else it is given.
 *  - rattle_alloc, rattle_realloc and rattle_dealloc are there, as they are declared below (examples/c/pool.c has
 *    them over an array). Calls that take memory give all of it back before they return. edd_load, edd_attribute,
 *    edd_encode, edd_decode, edd_reader, edd_writer and edd_play take memory, and no other call does.
 *
 * Threads: nothing is shared. Calls may be made by any number of threads at once, on one image as well,
 * if your three functions may. What a call writes to, as a session and its values, no other call is given
 * meanwhile.
 *
 * Values of variables are int64_t; each is in the range of its variable's type and size. Its MIN_VALUE and MAX_VALUE
 * are not looked at: which values a user may enter is the program's to say, by those attributes.
 * Texts are UTF-8 and have no 0 at their end.
 */
#ifndef EDD_H
#define EDD_H

#include <stdbool.h>
#include <stddef.h>
#include <stdint.h>

#ifdef __cplusplus
extern "C" {
#endif

/* ---- memory: three functions of yours, which the library calls and never exports ---- */

/* A block that was given, or any place where none was. */
typedef struct rattle_block {
    bool is_given;
    void *place;
} rattle_block;

/* A block of `size` bytes at a multiple of `alignment`, which divides 16. */
rattle_block rattle_alloc(size_t size, size_t alignment);

/*
 * The same block, or another, with `size` bytes, of which the first `kept` are as they were. Where it is refused, the
 * old block stays.
 */
rattle_block rattle_realloc(void *block, size_t kept, size_t size, size_t alignment);

/* Takes a block back that one of the two gave. */
void rattle_dealloc(void *block);

/* ---- statuses ---- */

enum {
    EDD_OK = 0,
    /* Of edd_load: the first rule of images that the bytes break. */
    EDD_SHORT = 101,
    EDD_MAGIC = 102,
    EDD_VERSION = 103,
    EDD_LENGTH = 104,
    EDD_ROW = 105,
    EDD_NAME = 106,
    EDD_TEXT = 107,
    EDD_INSTRUCTION = 108,
    EDD_JUMP = 109,
    EDD_DEPTH = 110,
    EDD_REFERENCE = 111,
    /* Memory was refused. The same call may go well later. */
    EDD_MEMORY = 150,
    /* There is no such item, string or element, or the item has no such attribute. */
    EDD_NO_ITEM = 203,
    /* The values are not one for each variable, in its range. (edd_advance and edd_reply say EDD_NO_SESSION.) */
    EDD_WRONG_VALUES = 204,
    /* Of edd_reply: no request is pending. */
    EDD_NOT_ASKING = 205,
    /* An answer sets a variable that does not exist. */
    EDD_BAD_VARIABLE = 206,
    /* An answer sets a value out of the range of its variable. */
    EDD_OUT_OF_RANGE = 207,
    /* Traps: under these values an expression has no value. */
    EDD_DIV_ZERO = 210,
    EDD_DIV_OVERFLOW = 211,
    EDD_BAD_SHIFT = 212,
    EDD_NO_ELEMENT = 213,
    /* Of edd_decode: the octets are not those of the message. */
    EDD_TOO_FEW_OCTETS = 220,
    EDD_TOO_MANY_OCTETS = 221,
    EDD_WRONG_CONSTANT = 222,
    EDD_EXCESS_BITS = 223,
    /* Of each call but edd_load and edd_where: the edd_image is not that of these bytes. */
    EDD_OTHER_IMAGE = 260,
    /* There is too little room, or for edd_play too much. */
    EDD_NO_ROOM = 261,
    /* The edd_session is none of this image under these values. */
    EDD_NO_SESSION = 262,
    /* Of edd_play and edd_reply: an answer says that it has more settings than there are. */
    EDD_NO_SETTINGS = 263
};

/* ---- an image ---- */

/* The numbers in the header of an image. edd_load writes them; read what you like, and write nothing. */
typedef struct edd_image {
    uint32_t length; /* of the image, in bytes */
    uint32_t manufacturer;
    uint32_t device_type;
    uint32_t device_revision;
    uint32_t dd_revision;
    uint32_t attribute_rows;
    uint32_t element_rows;
    uint32_t code_length;
    uint32_t names_length;
    uint32_t strings_length;
    uint16_t version;
    uint16_t variables; /* how many there are of each kind */
    uint16_t commands;
    uint16_t menus;
    uint16_t collections;
    uint16_t methods;
    uint16_t arrays;
    uint16_t strings;
} edd_image;

/*
 * Looks at all of the bytes. EDD_OK exactly where they are a valid image, memory aside: then the numbers
 * are written, and no later call fails for what the bytes are. Else EDD_SHORT to EDD_REFERENCE, or
 * EDD_MEMORY. Takes two bytes of memory for each byte of the longest piece of code, and gives them back.
 */
uint32_t edd_load(const uint8_t *bytes, size_t length, edd_image *image);

/* ---- names, texts and types: none of these calls takes memory ---- */

enum {
    EDD_KIND_VARIABLE = 1,
    EDD_KIND_COMMAND = 2,
    EDD_KIND_MENU = 3,
    EDD_KIND_COLLECTION = 4,
    EDD_KIND_METHOD = 5,
    EDD_KIND_ARRAY = 6
};

/* An item: its kind, and its number among the items of that kind, from 0. */
typedef struct edd_item {
    uint16_t number;
    uint8_t kind;
} edd_item;

/* The first item of this name. EDD_NO_ITEM where there is none, also where the name is not UTF-8. */
uint32_t edd_find(const uint8_t *bytes, size_t length, const edd_image *image,
                  const uint8_t *name, size_t name_length, edd_item *item);

/*
 * A name or a text: a part of the bytes of the image, so it lasts as long as they do. Begin with
 * EDD_NO_WORDS.
 */
typedef struct edd_words {
    const uint8_t *bytes;
    size_t length;
    uint8_t is_key; /* 1 where the text is the name of a key of the dictionary, else 0 */
} edd_words;

#define EDD_NO_WORDS { (const uint8_t *)"", 0, 0 }

/* The name of an item. EDD_NO_ITEM where there is none. */
uint32_t edd_name(const uint8_t *bytes, size_t length, const edd_image *image,
                  uint8_t kind, uint16_t number, edd_words *name);

/*
 * The text of a string for a language, given by its code ("de"): the first of that code, else the first in
 * English, else the first one; of a key its name. EDD_NO_ITEM where there is no such string.
 */
uint32_t edd_text(const uint8_t *bytes, size_t length, const edd_image *image,
                  uint16_t string, const uint8_t *code, size_t code_length, edd_words *text);

enum {
    EDD_TYPE_INTEGER = 1,
    EDD_TYPE_UNSIGNED_INTEGER = 2,
    EDD_TYPE_ENUMERATED = 3,
    EDD_TYPE_BIT_ENUMERATED = 4
};

/* The type of a variable, and its size in octets, from 1 to 4. */
typedef struct edd_type {
    uint8_t type;
    uint8_t size;
} edd_type;

/* EDD_NO_ITEM where there is no such variable. */
uint32_t edd_variable(const uint8_t *bytes, size_t length, const edd_image *image,
                      uint16_t number, edd_type *type);

/* The variable that an array has under a number. EDD_NO_ITEM where it has none. */
uint32_t edd_element(const uint8_t *bytes, size_t length, const edd_image *image,
                     uint16_t array, int64_t number, uint16_t *variable);

/* ---- attributes ---- */

enum {
    EDD_LABEL = 1,
    EDD_HELP = 2,
    EDD_CLASS = 3,
    EDD_HANDLING = 4,
    EDD_CONSTANT_UNIT = 5,
    EDD_VALIDITY = 6,
    EDD_DEFAULT_VALUE = 7,
    EDD_MIN_VALUE = 8,
    EDD_MAX_VALUE = 9,
    EDD_DISPLAY_FORMAT = 10,
    EDD_EDIT_FORMAT = 11,
    EDD_ENUMERATORS = 12,
    EDD_NUMBER = 13,
    EDD_OPERATION = 14,
    EDD_TRANSACTION = 15,
    EDD_REQUEST = 16,
    EDD_REPLY = 17,
    EDD_RESPONSE_CODES = 18,
    EDD_ITEMS = 19,
    EDD_MEMBERS = 20,
    EDD_DEFINITION = 21, /* the body of a method, which has no records: EDD_NO_ITEM; edd_start runs it */
    EDD_ELEMENTS = 22
};

/* Which record it is, and so which fields it has. */
enum {
    EDD_RECORD_WORDS = 1,      /* text */
    EDD_RECORD_NUMBER = 2,     /* value */
    EDD_RECORD_ENTRY = 3,      /* kind, item, qualifiers: an entry of a menu */
    EDD_RECORD_CONSTANT = 4,   /* value: an octet of a transaction */
    EDD_RECORD_VARIABLE = 5,   /* item, number (a mask, 0 for none), qualifiers: of a transaction */
    EDD_RECORD_ENUMERATOR = 6, /* value, text, help */
    EDD_RECORD_RESPONSE = 7,   /* number, class_, text */
    EDD_RECORD_MEMBER = 8,     /* text (its name), kind, item, label, help */
    EDD_RECORD_ELEMENT = 9     /* number, item (a variable), label, help */
};

/* What stands in a field for a string that is not there. */
#define EDD_NO_STRING 65535u

typedef struct edd_record {
    int64_t value;
    uint32_t number;
    uint16_t item;
    uint16_t qualifiers; /* of an entry 1 DISPLAY_VALUE, 2 READ_ONLY, 4 HIDDEN, 8 REVIEW; of a variable 1 INFO, 2 INDEX */
    uint16_t text;       /* numbers of strings, for edd_text */
    uint16_t label;
    uint16_t help;
    uint8_t tag;
    uint8_t kind;
    uint8_t class_; /* 0 SUCCESS, 1 MISC_WARNING, 2 DATA_ENTRY_WARNING, 3 DATA_ENTRY_ERROR, 4 MODE_ERROR, 5 PROCESS_ERROR, 6 MISC_ERROR */
} edd_record;

/*
 * What an attribute of an item is under the values: its conditions are decided, its expressions worked out,
 * and HANDLING and VALIDITY have their defaults. `sub` is the position of a transaction for EDD_TRANSACTION,
 * EDD_REQUEST and EDD_REPLY, else 0. `count` is that of the variables.
 *
 * EDD_OK: the records are at the front of `records`, and `given` is how many. EDD_NO_ROOM: `given` is how
 * many there are, and that alone is written. EDD_NO_ITEM: no such item, or its kind has no such attribute.
 * EDD_WRONG_VALUES, EDD_DIV_ZERO to EDD_NO_ELEMENT, EDD_MEMORY. An attribute that was not written has no
 * records. Takes memory for the values and the records, and gives it back.
 */
uint32_t edd_attribute(const uint8_t *bytes, size_t length, const edd_image *image,
                       uint8_t kind, uint16_t number, uint8_t attribute, uint16_t sub,
                       const int64_t *values, size_t count,
                       edd_record *records, size_t room, size_t *given);

/* ---- messages: the octets of a command's transactions ---- */

/*
 * One of the two messages of a transaction: the number of the command among the commands (that of its edd_item, not
 * its EDD_NUMBER), the position of the transaction in it, from 0, and EDD_REQUEST or EDD_REPLY. docs/OCTETS.md says
 * which octets it has.
 */
typedef struct edd_message {
    uint16_t command;
    uint16_t position;
    uint8_t side;
} edd_message;

/* A variable that is set. */
typedef struct edd_setting {
    int64_t value;
    uint16_t variable;
} edd_setting;

/*
 * The octets of a message under the values of its sender. EDD_OK: they are at the front of `octets`, and `given` is how
 * many. EDD_NO_ROOM: `given` is how many there are, and that alone is written. EDD_NO_ITEM: no such command or
 * transaction, or `side` is another number. EDD_WRONG_VALUES, EDD_DIV_ZERO to EDD_NO_ELEMENT, EDD_MEMORY. Takes memory
 * for the values, the items and the octets, and gives it back.
 */
uint32_t edd_encode(const uint8_t *bytes, size_t length, const edd_image *image, const edd_message *message,
                    const int64_t *values, size_t count,
                    uint8_t *octets, size_t room, size_t *given);

/*
 * What is taken from the octets of a message under the values of its receiver: the values that its variables have then,
 * in the order of the message. Make them in that order, in `values` itself or by the answer to a request: each is of a
 * variable of the image and in its range. Bits that the message does not name are as `values` has them. INFO items set
 * nothing.
 *
 * EDD_OK: the settings are at the front of `settings`, and `given` is how many. EDD_NO_ROOM: `given` is how many there
 * are. EDD_TOO_FEW_OCTETS, EDD_TOO_MANY_OCTETS. EDD_WRONG_CONSTANT: `given` is the place of the first octet that differs
 * from its constant, from 0. EDD_EXCESS_BITS: `given` is the number of the variable that does not have the bits. The others
 * are those of edd_encode, and leave `given` as it was. Takes memory for the values, the items and the settings, and
 * gives it back.
 */
uint32_t edd_decode(const uint8_t *bytes, size_t length, const edd_image *image, const edd_message *message,
                    const int64_t *values, size_t count, const uint8_t *octets, size_t octet_count,
                    edd_setting *settings, size_t room, size_t *given);

/*
 * The replies with which a variable is read: those that carry it, of the commands whose EDD_OPERATION is READ, by command
 * and position. EDD_OK: the one of this number among them, from 0, is in `message`, and `given` is how many they are.
 * EDD_NO_ITEM: there are no more than `number`; `given` is how many there are, and that alone is written.
 * EDD_WRONG_VALUES, EDD_MEMORY. Takes memory for the values and the messages, and gives it back.
 */
uint32_t edd_reader(const uint8_t *bytes, size_t length, const edd_image *image, uint16_t variable,
                    const int64_t *values, size_t count, size_t number, edd_message *message, size_t *given);

/* The same of the requests with which a variable is written, of the commands whose EDD_OPERATION is WRITE. */
uint32_t edd_writer(const uint8_t *bytes, size_t length, const edd_image *image, uint16_t variable,
                    const int64_t *values, size_t count, size_t number, edd_message *message, size_t *given);

/* ---- methods ---- */

/*
 * Which request it is, and so which fields it has; the numbers of texts in it are EDD_NO_STRING where it has none. What
 * its answer says, of which the settings are the same for each: the variables that have other values now.
 */
enum {
    EDD_ASK_PUT_MESSAGE = 1,        /* text; the code is 0 */
    EDD_ASK_ACKNOWLEDGE = 2,        /* text; the code is 0 */
    EDD_ASK_DELAY = 3,              /* first (seconds), text; the code is 0 */
    EDD_ASK_GET_DEV_VAR_VALUE = 4,  /* text, variable; a setting of that variable, and the code is 0 */
    EDD_ASK_SELECT_FROM_LIST = 5,   /* text, choices (parted by ;); the code is the choice's number, from 0 */
    EDD_ASK_SEND_COMMAND = 6,       /* first (the command's EDD_NUMBER); settings of what the reply holds, and the code
                                       is the device's response code */
    EDD_ASK_SEND_COMMAND_TRANS = 7, /* first, second (the EDD_TRANSACTION of one of its transactions); the same */
    EDD_ASK_SAVE_VALUES = 8         /* the code is 0 where the device has stored them */
};

typedef struct edd_request {
    int32_t first;
    int32_t second;
    uint16_t text; /* numbers of strings, for edd_text */
    uint16_t choices;
    uint16_t variable;
    uint8_t tag;
} edd_request;

/*
 * An answer to a request: the code, which is the request's value, after `settings` variables were set in their
 * order; or an abort, after which the method's abort methods run. The library takes any code; what the codes of
 * requests mean, as they stand above, is between descriptions and programs, as `edd open` has it too.
 */
typedef struct edd_answer {
    int32_t code;
    uint32_t settings;
    uint8_t aborts; /* 0 for an answer; any other number aborts */
} edd_answer;

enum {
    EDD_ENDED = 0,
    EDD_ABORTED = 1,
    EDD_TRAPPED = 2, /* and `trap` is EDD_DIV_ZERO to EDD_NO_ELEMENT */
    EDD_WAITING = 3, /* the last request has no answer yet */
    EDD_SPENT = 4    /* all steps were taken, and the method goes on */
};
/* edd_play gives these numbers in `ending`, and the calls on sessions in `turn`. */

typedef struct edd_ending {
    uint64_t requests; /* how many were made */
    uint16_t trap;
    uint8_t ending;
} edd_ending;

/*
 * Runs a method from its start for at most `steps` instructions, and meets its requests by the answers, one
 * after the other. The settings of all answers are in one list in the order of the answers. Answers and settings
 * that are left over are ignored.
 *
 * It keeps nothing from call to call: to go on after EDD_WAITING, call it with one more answer and the same
 * values. So a method that a technician answers is a list of answers that grows. Sessions, below, go on where they
 * stopped.
 *
 * EDD_OK: `ending` says how it ended; the first requests are in `requests`, as many as there is room for; and
 * `after`, which has room for just as many numbers as there are variables, has the values as the method left
 * them. EDD_NO_SETTINGS: the answers say more settings than `setting_count`. EDD_NO_ITEM: no such method, or it has
 * no body. EDD_WRONG_VALUES, EDD_BAD_VARIABLE, EDD_OUT_OF_RANGE, EDD_NO_ROOM (of `after`), EDD_MEMORY. Takes memory
 * for the values, the answers and the requests, and gives it back.
 */
uint32_t edd_play(const uint8_t *bytes, size_t length, const edd_image *image, uint16_t method,
                  const int64_t *values, size_t count,
                  const edd_answer *answers, size_t answer_count,
                  const edd_setting *settings, size_t setting_count, uint64_t steps,
                  edd_request *requests, size_t room, int64_t *after, size_t after_room,
                  edd_ending *ending);

/* ---- sessions: none of these calls takes memory ---- */

/* Where a session is. */
typedef struct edd_turn {
    edd_request request; /* the pending one, where it is EDD_WAITING, else one with the tag 0 */
    uint16_t trap;       /* EDD_DIV_ZERO to EDD_NO_ELEMENT where it is EDD_TRAPPED, else 0 */
    uint8_t turn;        /* EDD_ENDED, EDD_ABORTED, EDD_TRAPPED, EDD_WAITING, or EDD_SPENT where it goes on */
} edd_turn;

/*
 * A method that was started: with an array of values, which are the program's as well, it is all that is kept of it.
 * The calls below write it. Read what you like of it; copy it, store it with the values, and go on with the copy,
 * in another run of the program too, over the same image, the same byte order and the same version of this header.
 * Whether the image is the same is not looked at: store what identifies it, and a checksum of all, with the copy.
 *
 * Two sessions over one array of values are two methods on one device: each sees what the other has stored. Between
 * two calls the program may change a value within the range of its type, as where the device reports it.
 */
typedef struct edd_session {
    uint64_t taken;            /* how many instructions were executed so far; it stays at its greatest value */
    uint64_t place;            /* of the next instruction: bytes from the start of the method's code */
    int32_t operands[128];     /* the lowest first; those from operand_count on mean nothing */
    int32_t slots[64];         /* the method's own variables; those past their number mean nothing */
    uint16_t abort_methods[8]; /* the methods that are to run if it is aborted, in order, or that are left of them;
                                  those from abort_count on mean nothing */
    uint16_t method;           /* the one whose code is executed: after an abort an abort method, else that of edd_start */
    uint16_t operand_count;    /* at most 128 */
    uint16_t abort_count;      /* at most 8 */
    uint16_t is_aborting;      /* 1 where it was aborted and its abort methods run, else 0 */
    edd_turn turn;             /* where it is */
} edd_session;

/*
 * Whatever the numbers of an edd_session are, by a wild write or as they lay in memory, every call is safe.
 * edd_advance and edd_reply look at all of them first, and unless they are those of a state that fits the method's
 * code under the values, they answer EDD_NO_SESSION and write nothing. A wild write that leaves such a state behind is
 * not noticed: another pending request, say, or all bytes 0, which is a session that ended. No call answers
 * EDD_NO_SESSION of a session that only these calls have written, over its image and with values in their ranges.
 *
 * `values` are `count` numbers, one for each variable: what the device holds, as far as the program knows. The calls
 * read and write them in place. The array may lie elsewhere at the next call.
 */

/*
 * Starts a method under the values, and executes nothing. EDD_OK: all of `session` is written, and it is EDD_SPENT.
 * EDD_NO_ITEM: no such method, or it has no body. EDD_WRONG_VALUES.
 */
uint32_t edd_start(const uint8_t *bytes, size_t length, const edd_image *image, uint16_t method,
                   const int64_t *values, size_t count, edd_session *session);

/*
 * Executes at most `budget` instructions. It stops before where the method makes a request, and where it is over;
 * a session that is EDD_WAITING or over executes none, so this may be called at any time, and with a budget of 0 to
 * have a session looked at that was stored. In which budgets a run is cut makes no difference to it.
 *
 * EDD_OK: `session` and `values` are as the method left them, and `turn` says where it is: EDD_SPENT only after all
 * `budget` instructions. EDD_NO_SESSION.
 */
uint32_t edd_advance(const uint8_t *bytes, size_t length, const edd_image *image, edd_session *session,
                     int64_t *values, size_t count, uint32_t budget, edd_turn *turn);

/*
 * Answers the pending request, and executes nothing. The first settings, as many as the answer says, are made in
 * their order, and its code is the request's value. An abort sets nothing: the method goes on with its
 * abort methods, which may run long and ask, or is EDD_ABORTED where it has none. edd_play with these answers makes
 * the same requests and leaves the same values. A method that asks nothing can't be aborted: a program that gives it
 * up leaves the session, and none of its abort methods run.
 *
 * EDD_OK, or the first of these that holds: EDD_NO_SETTINGS where the answer says more settings than
 * `setting_count`; EDD_NO_SESSION; EDD_NOT_ASKING; for the first setting that can't be made EDD_BAD_VARIABLE or
 * EDD_OUT_OF_RANGE, and none is made.
 */
uint32_t edd_reply(const uint8_t *bytes, size_t length, const edd_image *image, edd_session *session,
                   int64_t *values, size_t count, const edd_answer *answer,
                   const edd_setting *settings, size_t setting_count);

/*
 * Says where a session is, by `session->turn` alone: as the last call left it. EDD_OK, and `turn` is written.
 * EDD_NO_SESSION where its numbers show no turn. The rest is not looked at: after a loss of power call edd_advance.
 */
uint32_t edd_where(const edd_session *session, edd_turn *turn);

#ifdef __cplusplus
}
#endif

#endif
