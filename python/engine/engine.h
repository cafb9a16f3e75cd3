/* What the sources of rocktray._engine share. */
#ifndef ROCKTRAY_ENGINE_H
#define ROCKTRAY_ENGINE_H

#define PY_SSIZE_T_CLEAN
#include <Python.h>

#include <stdbool.h>
#include <stdint.h>

#include "rocktray.h"

/* the capacities of buffers on the stack: for most results, and for most texts */
#define SHORT 4096
#define LONG 65536

#if Py_LIMITED_API < 0x030b0000
/* Buffers are part of the stable ABI from 3.11 on, and were the same in 3.10. */
typedef struct {
    void *buf;
    PyObject *obj;
    Py_ssize_t len, itemsize;
    int readonly, ndim;
    char *format;
    Py_ssize_t *shape, *strides, *suboffsets;
    void *internal;
} Py_buffer;
PyAPI_FUNC(int) PyObject_GetBuffer(PyObject *object, Py_buffer *view, int flags);
PyAPI_FUNC(void) PyBuffer_Release(Py_buffer *view);
#define PyBUF_SIMPLE 0
#endif

/* the most mails of a mailbox that one call finds */
#define MOST_MAILS 10000

/* the bytes of an object that a call reads */
struct input {
    PyObject *object;
    Py_buffer view;
    const uint8_t *at;
    size_t length;
};

/* The values of a mail that are decoded with its records once those of earlier mails were asked for. */
enum value { SUBJECT, DATE, FROM, TO, CC, BCC, SENDER, REPLY_TO, VALUES };

/* a name of a header, in lower case */
struct name {
    const char *at;
    size_t length;
};
extern const struct name value_names[VALUES];

/* a date that was read; the code is that of its refusal, or ROCKTRAY_ABSENT if there is none */
struct date {
    uint32_t code;
    bool is_zone_known;
    int64_t seconds, offset;
};

/* the values of a mail that were decoded with its records: those whose bits are in `known` */
struct ahead {
    uint32_t known;
    bool has_subject;
    size_t subject_start, subject_end; /* in the strings, as the ranges of addresses are */
    struct date date;
    size_t first[VALUES], last[VALUES]; /* the addresses of each value */
    size_t address_count; /* of those that follow this, before the strings */
};

/* What follows the values: their addresses, and their strings. */
const struct rocktray_address *addresses_in(const struct ahead *ahead);
const char *strings_in(const struct ahead *ahead);

/* space for the records of the mails of a batch, which is used again */
#define SPACE (1 << 19)
struct space {
    struct space *next;
    size_t used; /* the number of bytes */
    uint64_t at[SPACE / sizeof(uint64_t)];
};

/* a mail that is read: its bytes, and its records in one block, which is in a space or was allocated */
struct records {
    const uint8_t *at;
    size_t length, limit;
    uint32_t wanted; /* a bit for each value that is decoded with them */
    size_t part_count, header_count;
    struct rocktray_part *parts;
    struct rocktray_header_record *headers;
    struct ahead *ahead;  /* NULL if nothing was decoded */
    struct space *space;  /* the one to be used; later the one with the block, or NULL if that was allocated */
    size_t size;          /* of a block in a space */
};

/* Reads the mail. Returns the code; after any but ROCKTRAY_DONE nothing is allocated. */
uint32_t read_records(struct records *records);

/* Frees the block of records, unless it is in a space. */
void free_records(const struct records *records);

/* Moves the records to a block that is allocated, if they are in a space. Returns 0, or -1 without memory. */
int own_records(struct records *records);

/* Counts the offsets of records from `start` bytes earlier. */
void move(const struct records *records, uint64_t start);

/* Reads the date in a raw value. Returns the code; ROCKTRAY_TOO_SHORT if the value is long. */
uint32_t read_date(const uint8_t *raw, size_t length, struct date *date);

/* Whether a header of a mail has this name, without the case of ASCII letters. */
bool is_named(const uint8_t *mail, const struct rocktray_header_record *header, const uint8_t *name, size_t length);

/* a call of the library with its arguments */
struct request {
    uint32_t (*call)(struct request *request, void *buffer, size_t capacity, size_t *needed);
    struct input input;
    const uint8_t *other; /* a name, or the raw value of another header */
    size_t other_length, number;
    bool choice, is_damaged;
};

/* defines call_NAME, which makes the call rocktray_NAME with these arguments of `it` and a buffer */
#define CALL(name, ...)                                                                                                \
    static uint32_t call_##name(struct request *it, void *buffer, size_t capacity, size_t *needed)                     \
    {                                                                                                                  \
        return rocktray_##name(__VA_ARGS__, buffer, capacity, needed);                                                 \
    }
#define INPUT it->input.at, it->input.length
#define OTHER it->other, it->other_length

/* a function with several arguments as an entry of a table of functions */
#define FAST(function) (PyCFunction)(void (*)(void)) function

/* Takes all bytes of an object, until give_back. Returns 0, or -1 for an error. */
int take(struct input *input, PyObject *object);
void give_back(struct input *input);

/* Selects the bytes from `start` up to `end` of those that were taken. Returns 0, or -1 for an error: then they are
 * given back. */
int narrow(struct input *input, uint64_t start, uint64_t end);

/* Whether the number of arguments is right; otherwise sets a TypeError. */
bool is_count(Py_ssize_t count, Py_ssize_t wanted);

/* Take an argument: a size; a name, which is bytes. They return 0, or -1 for an error. */
int take_size(size_t *size, PyObject *object);
int take_name(const uint8_t **name, size_t *length, PyObject *object);

/* Whether the parts of this mail are found without Python's lock: it is long, and no thread can change it. */
bool is_mail_read_freely(const struct input *input);

/* Makes a call, with Python's lock or without it, and returns its code. */
uint32_t run(struct request *request, void *buffer, size_t capacity, size_t *needed);

/* What a call without a result returns: None if the code is ROCKTRAY_ABSENT, otherwise NULL, with an exception. */
PyObject *no_result(uint32_t code);

/* makes an object of these bytes */
typedef PyObject *(*maker)(const char *, Py_ssize_t);

/* The result of a call as an object that `make` makes, as a text, or as bytes, given a guess of its length; those
 * `and_back` give its input back. */
PyObject *result_of(struct request *request, size_t guess, maker make);
PyObject *result_and_back(struct request *request, size_t guess, maker make);
PyObject *text_of(struct request *request, size_t guess);
PyObject *text_and_back(struct request *request, size_t guess);
PyObject *bytes_and_back(struct request *request, size_t guess);

/* The same for bytes of this size, which are not copied. If it is wrong, nothing but time is lost. */
PyObject *sized_bytes_and_back(struct request *request, size_t size);

/* Keeps what was found, which it takes over, unless another thread has kept something meanwhile: then it is freed, or if
 * it is NULL, its error is cleared. Returns what is kept, a borrowed reference, or NULL with the error. */
PyObject *keep_first(PyObject **kept, PyObject *found);

/* Appends an item, which it takes over, to a list. Returns 0, or -1 for an error, also if the item is NULL. */
int append(PyObject *list, PyObject *item);

/* Makes a pair, which takes over both objects, also if one is NULL: a tuple, or an instance of this type of tuples. */
PyObject *pair_of(PyTypeObject *type, PyObject *first, PyObject *second);

/* A maker: a text. */
PyObject *decoded(const char *buffer, Py_ssize_t length);

/* A maker: the seconds since 1970 in the text of a date, and the offset of its zone, or None if that is unknown. */
PyObject *date_of(const char *text, Py_ssize_t length);

/* Takes a type, which is `base` or one made of it. Returns 0, or -1 for an error. */
int take_type(PyTypeObject **type, PyObject *object, PyTypeObject *base);

/* The seconds of a day, and of a quarter of an hour: the offset of nearly each zone is a multiple of it. */
#define DAY 86400
#define QUARTER 900

/* The state of the module: its types, and what it has of other modules; and the zones that were used, by their quarters of
 * an hour. */
struct types {
    PyObject *reading, *header, *node, *mail, *mails, *use, *batch, *store;
    PyObject *address, *datetime, *zone_of, *zones[2 * DAY / QUARTER];
};
extern PyType_Spec reading_spec, header_spec, node_spec, mail_spec, mails_spec, use_spec, batch_spec, store_spec;

/* The text of a code. */
PyObject *reason_of(uint32_t code);

/* Raises the refusal with this code, of the mail at a place unless that is NULL. Returns NULL. */
PyObject *refuse(uint32_t code, PyObject *place);

/* Makes a reading of these records, which it takes over. */
PyObject *reading_of(struct types *types, PyObject *data, const struct records *records);

/* The types of the module with a reading. */
struct types *types_of(PyObject *reading);

/* Takes a space of a store for records, or returns NULL; and gives it back, if it is not NULL. */
struct space *take_space(PyObject *store);
void give_space(PyObject *store, struct space *space);

/* The first value with a name in the headers of a mail, or None, and a list of its addresses. */
PyObject *first_value(PyObject *reading, const struct name *name);
PyObject *all_addresses(PyObject *reading, const struct name *name, PyTypeObject *type);

/* An address as an instance of this type of tuples; text that is no address is a name. */
PyObject *address_of(PyTypeObject *type, const char *strings, const struct rocktray_address *address);

/* Reads the first date of a mail. Returns 0, or -1 for an error. */
int first_date(PyObject *reading, struct date *date);

/* Reads a mail into records, without Python's lock if it is long. Returns the code. */
uint32_t read_input(const struct input *input, struct records *records);

/* What is decoded of a part of a reading: its type, the charset and the parameters; the name of its disposition, or
 * None; its file name, or None; its text, or None if it is no text. */
PyObject *type_of_part(PyObject *reading, const struct rocktray_part *part);
PyObject *disposition_of_part(PyObject *reading, const struct rocktray_part *part);
PyObject *file_name_of_part(PyObject *reading, const struct rocktray_part *part);
PyObject *text_of_part(PyObject *reading, const struct rocktray_part *part);

/* The parts of a reading as nodes of this type, given the path of the part with the mail and the index of the first. */
PyObject *nodes_of(PyObject *reading, PyObject *data, const struct rocktray_part *parts, size_t count,
                   PyTypeObject *type, PyObject *path, Py_ssize_t first);

/* read(data[, start, end], limit): reads a mail. */
PyObject *read_mail(PyObject *module, PyObject *const *arguments, Py_ssize_t count);
/* parse(type, data, limit): reads a mail into a new one of this type. */
PyObject *parse_mail(PyObject *module, PyObject *const *arguments, Py_ssize_t count);
/* Where the last separator after an empty line begins in bytes of a mailbox, or 0. Its line and one more byte are there, so
 * that no further bytes change it. Needs no lock of Python. */
size_t separator_in(const uint8_t *at, size_t length);
/* last_separator(data): the same. */
PyObject *last_separator(PyObject *module, PyObject *data);
/* read_mails(type, (data, offset, at, last), limit, use, is_counted, most, bytes, store): finds the mails from `at` up to
 * the separator at `last`, but at most `most` and some bytes, and reads the values that were used of earlier mails. Returns
 * new ones of this type, from the last to the first, their batch, and where the next one begins. */
PyObject *read_mails(PyObject *module, PyObject *const *arguments, Py_ssize_t count);
/* recipients(data): of each recipient that a mail reports its five texts, of which a missing one is None. */
PyObject *read_recipients(PyObject *module, PyObject *data);

/* findings(data): of each finding of a mail its name, its class, its path, its start and end, and its sentence. */
PyObject *read_findings(PyObject *module, PyObject *data);

/* text_files(text, limit): of each uuencoded file in a text, of which at most `limit` blocks are read, where its block
 * begins and ends, its name, its bytes, and whether it is damaged. */
PyObject *read_text_files(PyObject *module, PyObject *const *arguments, Py_ssize_t count);

#endif
