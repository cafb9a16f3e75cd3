/* rocktray._engine.Reading: the records of a mail, and what is decoded of its bytes by them. */
#include "engine.h"

#include <stddef.h>
#include <stdlib.h>
#include <string.h>
#include <structmember.h>

/* the number of records for which there is space on the stack */
#define FEW 64
/* the number of members of a record of a part, each of 64 bits */
#define MEMBERS (Py_ssize_t)(sizeof(struct rocktray_part) / sizeof(uint64_t))

/* a mail that was read; it never changes */
struct reading {
    PyObject_HEAD
    PyObject *data;
    struct types *types; /* the module is kept by the type, which the reading keeps */
    size_t part_count, header_count;
    struct rocktray_part *parts; /* in one block with the headers, and with values that were decoded ahead */
    struct rocktray_header_record *headers;
};

/* Reading. */

PyObject *reading_of(struct types *types, PyObject *data, const struct records *records)
{
    struct reading *reading = (struct reading *)PyType_GenericAlloc((PyTypeObject *)types->reading, 0);
    if (!reading) {
        free_records(records);
        return NULL;
    }
    reading->data = Py_NewRef(data);
    reading->types = types;
    reading->part_count = records->part_count;
    reading->header_count = records->header_count;
    reading->parts = records->parts;
    reading->headers = records->headers;
    return (PyObject *)reading;
}

struct types *types_of(PyObject *reading)
{
    return ((struct reading *)reading)->types;
}

uint32_t read_input(const struct input *input, struct records *records)
{
    uint32_t code;
    records->at = input->at;
    records->length = input->length;
    records->wanted = 0;
    records->space = NULL;
    if (!is_mail_read_freely(input))
        return read_records(records);
    Py_BEGIN_ALLOW_THREADS
    code = read_records(records);
    Py_END_ALLOW_THREADS
    return code;
}

/* Takes an object, and of its bytes those from `start` up to `end` if these two precede the limit, which is the last
 * argument. Returns 0, or -1 for an error. */
static int take_range(struct input *input, size_t *limit, PyObject *const *arguments, Py_ssize_t count)
{
    size_t start, end;
    if (take_size(limit, arguments[count - 1]) < 0)
        return -1;
    if (count == 2)
        return take(input, arguments[0]);
    if (take_size(&start, arguments[1]) < 0 || take_size(&end, arguments[2]) < 0 || take(input, arguments[0]) < 0)
        return -1;
    return narrow(input, start, end);
}

PyObject *read_mail(PyObject *module, PyObject *const *arguments, Py_ssize_t count)
{
    struct input input;
    struct records records;
    uint32_t code;
    if ((count != 2 && !is_count(count, 4)) || take_range(&input, &records.limit, arguments, count) < 0)
        return NULL;
    code = read_input(&input, &records);
    if (code == ROCKTRAY_DONE)
        move(&records, (uint64_t)(input.at - (const uint8_t *)input.view.buf));
    give_back(&input);
    if (code != ROCKTRAY_DONE)
        return no_result(code);
    return reading_of(PyModule_GetState(module), arguments[0], &records);
}

static void reading_free(PyObject *self)
{
    struct reading *reading = (struct reading *)self;
    PyTypeObject *type = Py_TYPE(self);
    Py_XDECREF(reading->data);
    free(reading->parts);
    ((freefunc)PyType_GetSlot(type, Py_tp_free))(self);
    Py_DECREF(type);
}

static Py_ssize_t reading_length(PyObject *self)
{
    return (Py_ssize_t)((struct reading *)self)->part_count;
}

/* Parts and headers. */

/* The record of the part with this index. NULL, with an IndexError, if there is none. */
static const struct rocktray_part *part_at(PyObject *self, PyObject *index)
{
    struct reading *reading = (struct reading *)self;
    size_t k;
    if (take_size(&k, index) < 0)
        return NULL;
    if (k < reading->part_count)
        return &reading->parts[k];
    PyErr_SetString(PyExc_IndexError, "there is no such part");
    return NULL;
}

/* Takes the bytes of the mail, so that all offsets of its records are valid. Returns 0, or -1 for an error. */
static int take_mail(struct input *input, PyObject *self)
{
    struct reading *reading = (struct reading *)self;
    return take(input, reading->data) < 0 ? -1 : narrow(input, reading->parts[0].start, reading->parts[0].end);
}

/* Points to bytes of the mail that was taken. */
static void point(struct input *input, uint64_t start, uint64_t end)
{
    input->at = (const uint8_t *)input->view.buf + start;
    input->length = end - start;
}

static const uint8_t *bytes_at(const struct input *input, uint64_t start)
{
    return (const uint8_t *)input->view.buf + start;
}

/* The first header of a part with this name, from `header` on, or from the part's first if that is NULL. NULL if none
 * has it. */
static const struct rocktray_header_record *next_named(PyObject *self, const struct input *input,
                                                       const struct rocktray_part *part,
                                                       const struct rocktray_header_record *header, const uint8_t *name,
                                                       size_t length)
{
    const struct rocktray_header_record *first = ((struct reading *)self)->headers + part->first_header;
    const struct rocktray_header_record *end = first + part->header_count;
    for (header = header ? header : first; header < end; header++)
        if (is_named(input->view.buf, header, name, length))
            return header;
    return NULL;
}

static const struct rocktray_header_record *first_named(PyObject *self, const struct input *input,
                                                        const struct rocktray_part *part, const char *name)
{
    return next_named(self, input, part, NULL, (const uint8_t *)name, strlen(name));
}

static PyObject *reading_part(PyObject *self, PyObject *index)
{
    const uint64_t *members = (const uint64_t *)part_at(self, index);
    PyObject *tuple = members ? PyTuple_New(MEMBERS) : NULL;
    Py_ssize_t k;
    for (k = 0; tuple && k < MEMBERS; k++) {
        /* the parent of the mail itself is -1 */
        PyObject *member = PyLong_FromLongLong((long long)members[k]);
        if (member)
            PyTuple_SetItem(tuple, k, member);
        else
            Py_CLEAR(tuple);
    }
    return tuple;
}

CALL(value, INPUT)

/* value(part, name, number): the value of the header with this name and number, or None. */
static PyObject *reading_value(PyObject *self, PyObject *const *arguments, Py_ssize_t count)
{
    struct request it = { .call = call_value };
    const struct rocktray_header_record *header = NULL;
    const struct rocktray_part *part;
    size_t left;
    if (!is_count(count, 3) || !(part = part_at(self, arguments[0])) ||
        take_name(&it.other, &it.other_length, arguments[1]) < 0 || take_size(&left, arguments[2]) < 0 ||
        take_mail(&it.input, self) < 0)
        return NULL;
    do
        header = next_named(self, &it.input, part, header ? header + 1 : NULL, it.other, it.other_length);
    while (header && left--);
    if (!header) {
        give_back(&it.input);
        Py_RETURN_NONE;
    }
    point(&it.input, header->value_start, header->value_end);
    return text_and_back(&it, 0);
}

/* The value of a header of the mail that was taken. */
static PyObject *value_of(struct request *it, const struct rocktray_header_record *header)
{
    it->call = call_value;
    point(&it->input, header->value_start, header->value_end);
    return text_of(it, 0);
}

PyObject *first_value(PyObject *self, const struct name *name)
{
    struct request it = { .call = call_value };
    const struct rocktray_header_record *header;
    if (take_mail(&it.input, self) < 0)
        return NULL;
    header = next_named(self, &it.input, ((struct reading *)self)->parts, NULL, (const uint8_t *)name->at, name->length);
    if (!header) {
        give_back(&it.input);
        Py_RETURN_NONE;
    }
    point(&it.input, header->value_start, header->value_end);
    return text_and_back(&it, 0);
}

/* values(part, name): the values of the headers with this name. */
static PyObject *reading_values(PyObject *self, PyObject *const *arguments, Py_ssize_t count)
{
    struct request it = { .call = call_value };
    const struct rocktray_header_record *header = NULL;
    const struct rocktray_part *part;
    PyObject *list;
    if (!is_count(count, 2) || !(part = part_at(self, arguments[0])) ||
        take_name(&it.other, &it.other_length, arguments[1]) < 0 || take_mail(&it.input, self) < 0)
        return NULL;
    list = PyList_New(0);
    while (list && (header = next_named(self, &it.input, part, header ? header + 1 : NULL, it.other, it.other_length)))
        if (append(list, value_of(&it, header)) < 0)
            Py_CLEAR(list);
    give_back(&it.input);
    return list;
}

/* The raw value of a header of a part. */
static PyObject *raw_value(PyObject *self, const struct rocktray_part *part, size_t number)
{
    struct input input;
    const struct rocktray_header_record *header;
    PyObject *made;
    if (number >= part->header_count) {
        PyErr_SetString(PyExc_IndexError, "there is no such header");
        return NULL;
    }
    if (take_mail(&input, self) < 0)
        return NULL;
    header = ((struct reading *)self)->headers + part->first_header + number;
    made = PyBytes_FromStringAndSize((const char *)bytes_at(&input, header->value_start),
                                     (Py_ssize_t)(header->value_end - header->value_start));
    give_back(&input);
    return made;
}

/* raw_value(part, number): the raw value of the header of a part with this number. */
static PyObject *reading_raw_value(PyObject *self, PyObject *const *arguments, Py_ssize_t count)
{
    const struct rocktray_part *part;
    size_t number;
    if (!is_count(count, 2) || !(part = part_at(self, arguments[0])) || take_size(&number, arguments[1]) < 0)
        return NULL;
    return raw_value(self, part, number);
}

/* Headers as objects. */

/* a header of a part; `source` is its raw value, or the reading with the part */
struct header {
    PyObject_HEAD
    PyObject *name, *value, *source;
    const struct rocktray_part *part;
    size_t number;
};

static PyObject *header_new(PyTypeObject *type, PyObject *arguments, PyObject *names)
{
    PyObject *name, *value, *raw;
    struct header *header;
    if (names && PyDict_Size(names) > 0) {
        PyErr_SetString(PyExc_TypeError, "a header takes no named arguments");
        return NULL;
    }
    if (!PyArg_ParseTuple(arguments, "UUS:Header", &name, &value, &raw))
        return NULL;
    header = (struct header *)PyType_GenericAlloc(type, 0);
    if (header) {
        header->name = Py_NewRef(name);
        header->value = Py_NewRef(value);
        header->source = Py_NewRef(raw);
    }
    return (PyObject *)header;
}

static void header_free(PyObject *self)
{
    struct header *header = (struct header *)self;
    PyTypeObject *type = Py_TYPE(self);
    Py_XDECREF(header->name);
    Py_XDECREF(header->value);
    Py_XDECREF(header->source);
    ((freefunc)PyType_GetSlot(type, Py_tp_free))(self);
    Py_DECREF(type);
}

static PyObject *header_raw(PyObject *self, void *unused)
{
    struct header *header = (struct header *)self;
    (void)unused;
    return PyBytes_Check(header->source) ? Py_NewRef(header->source)
                                         : raw_value(header->source, header->part, header->number);
}

static PyMemberDef header_members[] = {
    { "name", T_OBJECT_EX, offsetof(struct header, name), READONLY, "The name, as the mail has it." },
    { "value", T_OBJECT_EX, offsetof(struct header, value), READONLY, "The value: unfolded and decoded." },
    { NULL, 0, 0, 0, NULL },
};

static PyGetSetDef header_getters[] = {
    { "raw", header_raw, NULL, "The raw value, without decoding.", NULL },
    { NULL, NULL, NULL, NULL, NULL },
};

static PyType_Slot header_slots[] = {
    { Py_tp_new, header_new },
    { Py_tp_dealloc, header_free },
    { Py_tp_members, header_members },
    { Py_tp_getset, header_getters },
    { 0, NULL },
};

PyType_Spec header_spec = {
    .name = "rocktray._engine.Header",
    .basicsize = sizeof(struct header),
    .flags = Py_TPFLAGS_DEFAULT | Py_TPFLAGS_BASETYPE,
    .slots = header_slots,
};

/* A header of a part, as an object of this type. */
static PyObject *header_of(PyTypeObject *type, PyObject *self, const struct rocktray_part *part, size_t number,
                           struct request *it)
{
    const struct rocktray_header_record *record = ((struct reading *)self)->headers + part->first_header + number;
    struct header *header = (struct header *)PyType_GenericAlloc(type, 0);
    if (!header)
        return NULL;
    header->source = Py_NewRef(self);
    header->part = part;
    header->number = number;
    header->name = PyUnicode_DecodeLatin1((const char *)bytes_at(&it->input, record->start),
                                          (Py_ssize_t)(record->key_end - record->start), NULL);
    header->value = value_of(it, record);
    if (!header->name || !header->value)
        Py_CLEAR(header);
    return (PyObject *)header;
}

/* headers(part, type): the headers, as objects of this type. */
static PyObject *reading_headers(PyObject *self, PyObject *const *arguments, Py_ssize_t count)
{
    struct request it = { .call = call_value };
    const struct rocktray_part *part;
    PyTypeObject *type;
    PyObject *list, *header;
    size_t k;
    if (!is_count(count, 2) || !(part = part_at(self, arguments[0])) ||
        take_type(&type, arguments[1], (PyTypeObject *)((struct reading *)self)->types->header) < 0 ||
        take_mail(&it.input, self) < 0)
        return NULL;
    list = PyList_New((Py_ssize_t)part->header_count);
    for (k = 0; list && k < part->header_count; k++) {
        if ((header = header_of(type, self, part, k, &it)))
            PyList_SetItem(list, (Py_ssize_t)k, header);
        else
            Py_CLEAR(list);
    }
    give_back(&it.input);
    return list;
}

/* Types, names and addresses. */

/* the results of a call that fills records, and writes their strings to a buffer */
struct found {
    void *records;
    size_t record_capacity, record_count;
    char *buffer;
    size_t capacity, length;
    uint64_t few_records[6 * FEW];
    char few[SHORT];
};

static void forget(struct found *found)
{
    if (found->records != found->few_records)
        free(found->records);
    if (found->buffer != found->few)
        free(found->buffer);
    found->records = found->few_records;
    found->buffer = found->few;
}

/* Makes the call, with larger buffers where they are too short. forget frees what this allocates. */
static uint32_t find(struct request *it, struct found *found, size_t record_size)
{
    uint32_t code;
    found->records = found->few_records;
    found->record_capacity = sizeof found->few_records / record_size;
    found->buffer = found->few;
    found->capacity = SHORT;
    while ((code = run(it, found, 0, NULL)) == ROCKTRAY_TOO_SHORT) {
        forget(found);
        found->record_capacity = found->record_count + 1;
        found->capacity = found->length + 1;
        found->records = malloc(found->record_capacity * record_size);
        found->buffer = malloc(found->capacity);
        if (!found->records || !found->buffer)
            return ROCKTRAY_NO_MEMORY;
    }
    return code;
}

/* defines call_NAME, which makes the call rocktray_NAME, whose results are records and strings */
#define CALL_FOR_RECORDS(name)                                                                                         \
    static uint32_t call_##name(struct request *it, void *buffer, size_t capacity, size_t *needed)                     \
    {                                                                                                                  \
        struct found *found = buffer;                                                                                  \
        (void)capacity;                                                                                                \
        (void)needed;                                                                                                  \
        return rocktray_##name(INPUT, found->records, found->record_capacity, &found->record_count, found->buffer,     \
                               found->capacity, &found->length);                                                       \
    }

CALL_FOR_RECORDS(type)
CALL_FOR_RECORDS(addresses)
CALL_FOR_RECORDS(report)
CALL_FOR_RECORDS(recipients)
CALL_FOR_RECORDS(findings)
CALL(file_name, OTHER, INPUT)

/* The k-th string of a type. */
static PyObject *string_at(const struct found *found, size_t k)
{
    const uint64_t *ends = found->records;
    uint64_t start = k ? ends[k - 1] : 0;
    return PyUnicode_DecodeUTF8(found->buffer + start, (Py_ssize_t)(ends[k] - start), NULL);
}

/* The parameters of a type. */
static PyObject *parameters_of(const struct found *found)
{
    PyObject *parameters = PyDict_New(), *name, *value;
    size_t k;
    for (k = 2; parameters && k + 1 < found->record_count; k += 2) {
        name = string_at(found, k);
        value = name ? string_at(found, k + 1) : NULL;
        if (!value || PyDict_SetItem(parameters, name, value) < 0)
            Py_CLEAR(parameters);
        Py_XDECREF(name);
        Py_XDECREF(value);
    }
    return parameters;
}

/* The type, the charset and the parameters in the raw value of a header. */
static PyObject *type_of(struct request *it, const struct rocktray_header_record *header)
{
    struct found found;
    PyObject *made = NULL;
    uint32_t code;
    it->call = call_type;
    point(&it->input, header->value_start, header->value_end);
    code = find(it, &found, sizeof(uint64_t));
    /* N takes over the references, and returns NULL for one that is NULL */
    if (code == ROCKTRAY_DONE)
        made = Py_BuildValue("NNN", string_at(&found, 0), string_at(&found, 1), parameters_of(&found));
    else
        made = no_result(code);
    forget(&found);
    return made;
}

PyObject *type_of_part(PyObject *self, const struct rocktray_part *part)
{
    struct request it = { .number = 0 };
    const struct rocktray_header_record *header;
    PyObject *made;
    if (take_mail(&it.input, self) < 0)
        return NULL;
    header = first_named(self, &it.input, part, "content-type");
    if (header)
        made = type_of(&it, header);
    else if (part->flags & ROCKTRAY_IS_MAIL) /* it is directly inside a digest */
        made = Py_BuildValue("ssN", "message/rfc822", "us-ascii", PyDict_New());
    else
        made = Py_BuildValue("ssN", "text/plain", "us-ascii", PyDict_New());
    give_back(&it.input);
    return made;
}

/* type(part): the type, the charset and the parameters of a part. */
static PyObject *reading_type(PyObject *self, PyObject *index)
{
    const struct rocktray_part *part = part_at(self, index);
    return part ? type_of_part(self, part) : NULL;
}

PyObject *disposition_of_part(PyObject *self, const struct rocktray_part *part)
{
    static const char *const names[] = { NULL, "inline", "attachment", "form-data" };
    (void)self;
    return Py_BuildValue("s", part->disposition < ROCKTRAY_OTHERWISE ? names[part->disposition] : "");
}

/* disposition(part): the name of the disposition of a part, empty for any but the three above, or None without one. */
static PyObject *reading_disposition(PyObject *self, PyObject *index)
{
    const struct rocktray_part *part = part_at(self, index);
    return part ? disposition_of_part(self, part) : NULL;
}

PyObject *file_name_of_part(PyObject *self, const struct rocktray_part *part)
{
    struct request it = { .call = call_file_name };
    const struct rocktray_header_record *type, *disposition;
    if (take_mail(&it.input, self) < 0)
        return NULL;
    type = first_named(self, &it.input, part, "content-type");
    disposition = first_named(self, &it.input, part, "content-disposition");
    point(&it.input, type ? type->value_start : 0, type ? type->value_end : 0);
    it.other = disposition ? bytes_at(&it.input, disposition->value_start) : NULL;
    it.other_length = disposition ? disposition->value_end - disposition->value_start : 0;
    return text_and_back(&it, 0);
}

/* file_name(part): the file name of a part, or None. */
static PyObject *reading_file_name(PyObject *self, PyObject *index)
{
    const struct rocktray_part *part = part_at(self, index);
    return part ? file_name_of_part(self, part) : NULL;
}

PyObject *address_of(PyTypeObject *type, const char *strings, const struct rocktray_address *address)
{
    const char *at = strings + address->address_start, *name = strings + address->name_start;
    Py_ssize_t length = (Py_ssize_t)(address->address_end - address->address_start);
    if (address->kind == ROCKTRAY_UNKNOWN)
        return pair_of(type, PyUnicode_DecodeLatin1(at, length, NULL), PyUnicode_FromStringAndSize("", 0));
    return pair_of(type, PyUnicode_DecodeUTF8(name, (Py_ssize_t)(address->name_end - address->name_start), NULL),
                   PyUnicode_DecodeUTF8(at, length, NULL));
}

/* Appends the addresses in a header to a list. Returns 0, or -1 for an error. */
static int append_addresses(PyObject *list, PyTypeObject *type, struct request *it,
                            const struct rocktray_header_record *header)
{
    struct found found;
    uint32_t code;
    size_t k;
    int result = 0;
    it->call = call_addresses;
    point(&it->input, header->value_start, header->value_end);
    code = find(it, &found, sizeof(struct rocktray_address));
    if (code != ROCKTRAY_DONE) {
        Py_XDECREF(no_result(code));
        result = -1;
    }
    for (k = 0; result == 0 && k < found.record_count; k++) {
        const struct rocktray_address *address = (const struct rocktray_address *)found.records + k;
        if (address->kind != ROCKTRAY_GROUP)
            result = append(list, address_of(type, found.buffer, address));
    }
    forget(&found);
    return result;
}

/* The addresses in the headers of a part with a name, which is that of the request. */
static PyObject *list_addresses(PyObject *self, const struct rocktray_part *part, struct request *it, PyTypeObject *type)
{
    const struct rocktray_header_record *header = NULL;
    PyObject *list;
    if (take_mail(&it->input, self) < 0)
        return NULL;
    list = PyList_New(0);
    while (list && (header = next_named(self, &it->input, part, header ? header + 1 : NULL, it->other, it->other_length)))
        if (append_addresses(list, type, it, header) < 0)
            Py_CLEAR(list);
    give_back(&it->input);
    return list;
}

PyObject *all_addresses(PyObject *self, const struct name *name, PyTypeObject *type)
{
    struct request it = { .other = (const uint8_t *)name->at, .other_length = name->length };
    return list_addresses(self, ((struct reading *)self)->parts, &it, type);
}

/* addresses(part, name[, type]): the mailboxes in the headers with this name, those in groups too, as tuples or as
 * instances of this type of tuples. */
static PyObject *reading_addresses(PyObject *self, PyObject *const *arguments, Py_ssize_t count)
{
    struct request it = { .number = 0 };
    const struct rocktray_part *part;
    PyTypeObject *type = NULL;
    if ((count != 3 && !is_count(count, 2)) || !(part = part_at(self, arguments[0])) ||
        take_name(&it.other, &it.other_length, arguments[1]) < 0 ||
        (count == 3 && take_type(&type, arguments[2], &PyTuple_Type) < 0))
        return NULL;
    return list_addresses(self, part, &it, type);
}

/* Dates and message ids. */

/* date(part): what date_of makes of the value of the first Date, or None if there is none. */
static PyObject *reading_date(PyObject *self, PyObject *index)
{
    struct request it = { .call = call_value };
    const struct rocktray_part *part = part_at(self, index);
    const struct rocktray_header_record *header;
    if (!part || take_mail(&it.input, self) < 0)
        return NULL;
    header = first_named(self, &it.input, part, "date");
    if (!header) {
        give_back(&it.input);
        Py_RETURN_NONE;
    }
    point(&it.input, header->value_start, header->value_end);
    return result_and_back(&it, 0, date_of);
}

/* What is read of a date whose value is too long for the stack. Returns 0, or -1 for an error. */
static int long_date(struct request *it, struct date *date)
{
    PyObject *text = text_of(it, 0);
    Py_ssize_t length = 0;
    const char *at = text ? PyUnicode_AsUTF8AndSize(text, &length) : NULL;
    if (at)
        date->code = rocktray_date_and_offset(at, (size_t)length, &date->seconds, &date->offset, &date->is_zone_known);
    Py_XDECREF(text);
    return at ? 0 : -1;
}

int first_date(PyObject *self, struct date *date)
{
    struct request it = { .call = call_value };
    const struct rocktray_header_record *header;
    int result = 0;
    if (take_mail(&it.input, self) < 0)
        return -1;
    date->code = ROCKTRAY_ABSENT;
    header = first_named(self, &it.input, ((struct reading *)self)->parts, "date");
    if (header) {
        point(&it.input, header->value_start, header->value_end);
        date->code = read_date(it.input.at, it.input.length, date);
    }
    if (date->code == ROCKTRAY_TOO_SHORT)
        result = long_date(&it, date);
    give_back(&it.input);
    return result;
}

CALL(ids, INPUT, it->choice)

/* A maker: the ids as a list, each of which is between `<` and `>`. */
static PyObject *list_of_ids(const char *at, Py_ssize_t length)
{
    const char *end = at + length, *close;
    PyObject *list = PyList_New(0);
    for (; list && at < end; at = close + 1) {
        for (close = at; close < end - 1 && (close[0] != '>' || close[1] != '<'); close++)
            ;
        if (append(list, PyUnicode_DecodeUTF8(at + 1, close - at - 1, NULL)) < 0)
            Py_CLEAR(list);
    }
    return list;
}

/* Whether a byte is a blank, which continues a line. */
static bool is_blank_at(const uint8_t *at, const uint8_t *end)
{
    return at < end && (*at == ' ' || *at == '\t');
}

/* Writes a raw value to a buffer, with a space for each line end and the blanks after it. Returns the end. */
static uint8_t *unfold(uint8_t *to, const uint8_t *at, const uint8_t *end)
{
    while (at < end) {
        const uint8_t *feed = at + (*at == '\r');
        if (feed < end && *feed == '\n' && is_blank_at(feed + 1, end)) {
            for (at = feed + 1; is_blank_at(at, end); at++)
                ;
            *to++ = ' ';
        } else {
            *to++ = *at++;
        }
    }
    return to;
}

/* Writes these bytes as the UTF-8 of Latin-1 to a buffer. Returns the end. */
static uint8_t *widen(uint8_t *to, const uint8_t *at, const uint8_t *end)
{
    for (; at < end; at++) {
        if (*at >= 0x80)
            *to++ = 0xc0 | *at >> 6;
        *to++ = *at >= 0x80 ? 0x80 | (*at & 0x3f) : *at;
    }
    return to;
}

/* The ids in a raw value, given a buffer of three times its length. Bytes that are not UTF-8 are Latin-1. */
static PyObject *ids_in(struct request *it, uint8_t *buffer)
{
    uint8_t *end = unfold(buffer, it->input.at, it->input.at + it->input.length), *other = buffer;
    size_t needed;
    it->input.at = buffer;
    it->input.length = (size_t)(end - buffer);
    while (other < end && *other < 0x80)
        other++;
    if (other < end && call_ids(it, NULL, 0, &needed) == ROCKTRAY_NOT_UTF8) {
        it->input.length = (size_t)(widen(end, buffer, end) - end);
        it->input.at = end;
    }
    return result_of(it, it->input.length, list_of_ids);
}

/* ids(part, name, needs_at): the message ids in the first header with this name. It is unfolded, and no encoded word in
 * it is decoded: ids contain none. */
static PyObject *reading_ids(PyObject *self, PyObject *const *arguments, Py_ssize_t count)
{
    struct request it = { .call = call_ids };
    const struct rocktray_header_record *header;
    const struct rocktray_part *part;
    uint8_t few[SHORT], *buffer = few;
    PyObject *made;
    if (!is_count(count, 3) || !(part = part_at(self, arguments[0])) ||
        take_name(&it.other, &it.other_length, arguments[1]) < 0 || take_mail(&it.input, self) < 0)
        return NULL;
    it.choice = arguments[2] == Py_True;
    header = next_named(self, &it.input, part, NULL, it.other, it.other_length);
    if (header)
        point(&it.input, header->value_start, header->value_end);
    if (header && 3 * it.input.length > SHORT)
        buffer = malloc(3 * it.input.length);
    made = !header ? PyList_New(0) : buffer ? ids_in(&it, buffer) : PyErr_NoMemory();
    if (buffer != few)
        free(buffer);
    give_back(&it.input);
    return made;
}

/* Reports. */

/* The block of a report with this number in a list of them, which grows up to it. A borrowed reference, or NULL. */
static PyObject *block_at(PyObject *blocks, uint64_t number)
{
    while ((uint64_t)PyList_Size(blocks) <= number)
        if (append(blocks, PyList_New(0)) < 0)
            return NULL;
    return PyList_GetItem(blocks, (Py_ssize_t)number);
}

/* The blocks of a report: lists of the names and values of their fields. */
static PyObject *blocks_of(const struct found *found)
{
    const struct rocktray_field *field = found->records, *end = field + found->record_count;
    PyObject *blocks = PyList_New(0), *block, *pair;
    for (; blocks && field < end; field++) {
        block = block_at(blocks, field->block);
        pair = Py_BuildValue("s#s#", found->buffer + field->name_start,
                             (Py_ssize_t)(field->name_end - field->name_start), found->buffer + field->value_start,
                             (Py_ssize_t)(field->value_end - field->value_start));
        if (!block)
            Py_CLEAR(pair);
        if (append(block, pair) < 0)
            Py_CLEAR(blocks);
    }
    return blocks;
}

/* report(part): the blocks of the report that a part is, or None. Blocks without fields at the end are left out. */
static PyObject *reading_report(PyObject *self, PyObject *index)
{
    struct request it = { .call = call_report };
    const struct rocktray_part *part = part_at(self, index);
    struct found found;
    PyObject *blocks;
    uint32_t code;
    if (!part || take_mail(&it.input, self) < 0)
        return NULL;
    point(&it.input, part->start, part->end);
    code = find(&it, &found, sizeof(struct rocktray_field));
    give_back(&it.input);
    blocks = code == ROCKTRAY_DONE ? blocks_of(&found) : no_result(code);
    forget(&found);
    return blocks;
}

/* Returns the object of a record, or NULL with an exception. */
typedef PyObject *item_of_record(const struct found *found, const void *record);

/* Makes the list of the records that a call finds, each of this size, and gives the input back. */
static PyObject *list_of_found(struct request *it, size_t record_size, item_of_record *item_of)
{
    struct found found;
    uint32_t code = find(it, &found, record_size);
    PyObject *list = code == ROCKTRAY_DONE ? PyList_New(0) : no_result(code);
    size_t k;
    give_back(&it->input);
    for (k = 0; code == ROCKTRAY_DONE && list && k < found.record_count; k++)
        if (append(list, item_of(&found, (const char *)found.records + k * record_size)) < 0)
            Py_CLEAR(list);
    forget(&found);
    return list;
}

/* Recipients. */

/* The text at the start of a range, or NULL if it is missing. */
static const char *text_at(const struct found *found, uint64_t start)
{
    return start == ROCKTRAY_NONE ? NULL : found->buffer + start;
}

/* The texts of a recipient. A missing text is NULL, of which Py_BuildValue makes None. */
static PyObject *recipient_of(const struct found *found, const void *record)
{
    const struct rocktray_recipient *it = record;
    return Py_BuildValue("z#z#z#z#z#", text_at(found, it->final_start), (Py_ssize_t)(it->final_end - it->final_start),
                         text_at(found, it->original_start), (Py_ssize_t)(it->original_end - it->original_start),
                         text_at(found, it->action_start), (Py_ssize_t)(it->action_end - it->action_start),
                         text_at(found, it->status_start), (Py_ssize_t)(it->status_end - it->status_start),
                         text_at(found, it->diagnostic_start), (Py_ssize_t)(it->diagnostic_end - it->diagnostic_start));
}

PyObject *read_recipients(PyObject *module, PyObject *data)
{
    struct request it = { .call = call_recipients };
    (void)module;
    if (take(&it.input, data) < 0)
        return NULL;
    return list_of_found(&it, sizeof(struct rocktray_recipient), recipient_of);
}

/* Findings. */

/* The texts of the classes, by their numbers. */
static const char *const class_texts[] = { "structure", "bytes", "name", "text", "note" };

/* A finding: its name, its class, the path of its part, its bytes, and its sentence. */
static PyObject *finding_of(const struct found *found, const void *record)
{
    const struct rocktray_finding *it = record;
    return Py_BuildValue("s#ss#KKs#", found->buffer + it->name_start, (Py_ssize_t)(it->name_end - it->name_start),
                         class_texts[it->finding_class], found->buffer + it->path_start,
                         (Py_ssize_t)(it->path_end - it->path_start), (unsigned long long)it->start,
                         (unsigned long long)it->end,
                         found->buffer + it->sentence_start, (Py_ssize_t)(it->sentence_end - it->sentence_start));
}

PyObject *read_findings(PyObject *module, PyObject *data)
{
    struct request it = { .call = call_findings };
    (void)module;
    if (take(&it.input, data) < 0)
        return NULL;
    return list_of_found(&it, sizeof(struct rocktray_finding), finding_of);
}

/* Files in texts. */

static uint32_t call_text_files(struct request *it, void *buffer, size_t capacity, size_t *needed)
{
    struct found *found = buffer;
    (void)capacity;
    (void)needed;
    return rocktray_text_files(INPUT, it->number, found->records, found->record_capacity, &found->record_count,
                               found->buffer, found->capacity, &found->length);
}

/* Where the block of a file begins and ends, its name, its bytes, and whether it is damaged. */
static PyObject *text_file_of(const struct found *found, const void *record)
{
    const struct rocktray_text_file *it = record;
    return Py_BuildValue("KKs#y#O", (unsigned long long)it->block_start, (unsigned long long)it->block_end,
                         found->buffer + it->name_start, (Py_ssize_t)(it->name_end - it->name_start),
                         found->buffer + it->content_start, (Py_ssize_t)(it->content_end - it->content_start),
                         it->is_damaged ? Py_True : Py_False);
}

PyObject *read_text_files(PyObject *module, PyObject *const *arguments, Py_ssize_t count)
{
    struct request it = { .call = call_text_files };
    (void)module;
    if (!is_count(count, 2) || take_size(&it.number, arguments[1]) < 0 || take(&it.input, arguments[0]) < 0)
        return NULL;
    return list_of_found(&it, sizeof(struct rocktray_text_file), text_file_of);
}

/* Bodies. */

static uint32_t call_body(struct request *it, void *buffer, size_t capacity, size_t *needed)
{
    return rocktray_body(it->number, INPUT, buffer, capacity, needed, &it->is_damaged);
}

static uint32_t call_body_text(struct request *it, void *buffer, size_t capacity, size_t *needed)
{
    return rocktray_body_text(it->number, INPUT, OTHER, buffer, capacity, needed, &it->is_damaged);
}

static uint32_t call_body_charset(struct request *it, void *buffer, size_t capacity, size_t *needed)
{
    return rocktray_body_charset(it->number, INPUT, OTHER, buffer, capacity, needed);
}

/* Begins a request for the body of a part. Returns 0, or -1 for an error. */
static int begin_body(struct request *it, PyObject *self, const struct rocktray_part *part)
{
    if (!part || take_mail(&it->input, self) < 0)
        return -1;
    it->number = part->encoding;
    point(&it->input, part->body_start, part->body_end);
    return 0;
}

/* The result, unless it is NULL, with whether the body is damaged. */
static PyObject *with_damage(PyObject *made, const struct request *it)
{
    return made ? Py_BuildValue("NO", made, it->is_damaged ? Py_True : Py_False) : NULL;
}

/* body(part, size): what can be read of the decoded bytes of a body, and whether it is damaged. The size is their number,
 * or 0 if that is not known. */
static PyObject *reading_body(PyObject *self, PyObject *const *arguments, Py_ssize_t count)
{
    struct request it = { .call = call_body };
    const struct rocktray_part *part;
    size_t size;
    PyObject *made;
    if (!is_count(count, 2) || !(part = part_at(self, arguments[0])) || take_size(&size, arguments[1]) < 0 ||
        begin_body(&it, self, part) < 0)
        return NULL;
    if (part->encoding < ROCKTRAY_QUOTED_PRINTABLE) { /* it is not encoded */
        made = PyBytes_FromStringAndSize((const char *)it.input.at, (Py_ssize_t)it.input.length);
        give_back(&it.input);
        return with_damage(made, &it);
    }
    made = size ? sized_bytes_and_back(&it, size) : bytes_and_back(&it, it.input.length);
    return with_damage(made, &it);
}

/* body_size(part): the number of these bytes, and whether the body is damaged. */
static PyObject *reading_body_size(PyObject *self, PyObject *index)
{
    struct request it = { .call = call_body };
    size_t needed = 0;
    uint32_t code;
    if (begin_body(&it, self, part_at(self, index)) < 0)
        return NULL;
    code = run(&it, NULL, 0, &needed);
    give_back(&it.input);
    if (code != ROCKTRAY_DONE && code != ROCKTRAY_TOO_SHORT)
        return no_result(code);
    return with_damage(PyLong_FromSize_t(needed), &it);
}

/* The same with the type of the part. */
static int begin_text(struct request *it, PyObject *self, const struct rocktray_part *part)
{
    const struct rocktray_header_record *type;
    if (begin_body(it, self, part) < 0)
        return -1;
    type = first_named(self, &it->input, part, "content-type");
    it->other = type ? bytes_at(&it->input, type->value_start) : NULL;
    it->other_length = type ? type->value_end - type->value_start : 0;
    return 0;
}

PyObject *text_of_part(PyObject *self, const struct rocktray_part *part)
{
    struct request it = { .call = call_body_text };
    if (!(part->flags & ROCKTRAY_IS_TEXT))
        Py_RETURN_NONE;
    return begin_text(&it, self, part) < 0 ? NULL : text_and_back(&it, it.input.length + it.input.length / 8);
}

/* text(part): the text of a body, and whether the body is damaged. */
static PyObject *reading_text(PyObject *self, PyObject *index)
{
    struct request it = { .call = call_body_text };
    if (begin_text(&it, self, part_at(self, index)) < 0)
        return NULL;
    return with_damage(text_and_back(&it, it.input.length + it.input.length / 8), &it);
}

/* charset(part): the charset in which that text is read. */
static PyObject *reading_charset(PyObject *self, PyObject *index)
{
    struct request it = { .call = call_body_charset };
    return begin_text(&it, self, part_at(self, index)) < 0 ? NULL : text_and_back(&it, 32);
}

/* nodes(type, path, first): the parts as nodes of this type, given the path of the part with the mail and the index of
 * the first. */
static PyObject *reading_nodes(PyObject *self, PyObject *const *arguments, Py_ssize_t count)
{
    struct reading *reading = (struct reading *)self;
    PyTypeObject *type;
    size_t first;
    if (!is_count(count, 3) || take_type(&type, arguments[0], (PyTypeObject *)reading->types->node) < 0 ||
        take_size(&first, arguments[2]) < 0)
        return NULL;
    return nodes_of(self, reading->data, reading->parts, reading->part_count, type, arguments[1], (Py_ssize_t)first);
}

static PyMethodDef methods[] = {
    { "nodes", FAST(reading_nodes), METH_FASTCALL, NULL },
    { "part", reading_part, METH_O, NULL },
    { "value", FAST(reading_value), METH_FASTCALL, NULL },
    { "values", FAST(reading_values), METH_FASTCALL, NULL },
    { "headers", FAST(reading_headers), METH_FASTCALL, NULL },
    { "raw_value", FAST(reading_raw_value), METH_FASTCALL, NULL },
    { "type", reading_type, METH_O, NULL },
    { "disposition", reading_disposition, METH_O, NULL },
    { "file_name", reading_file_name, METH_O, NULL },
    { "addresses", FAST(reading_addresses), METH_FASTCALL, NULL },
    { "date", reading_date, METH_O, NULL },
    { "ids", FAST(reading_ids), METH_FASTCALL, NULL },
    { "report", reading_report, METH_O, NULL },
    { "body", FAST(reading_body), METH_FASTCALL, NULL },
    { "body_size", reading_body_size, METH_O, NULL },
    { "text", reading_text, METH_O, NULL },
    { "charset", reading_charset, METH_O, NULL },
    { NULL, NULL, 0, NULL },
};

static PyType_Slot slots[] = {
    { Py_tp_dealloc, reading_free },
    { Py_sq_length, reading_length },
    { Py_tp_methods, methods },
    { 0, NULL },
};

PyType_Spec reading_spec = {
    .name = "rocktray._engine.Reading",
    .basicsize = sizeof(struct reading),
    .flags = Py_TPFLAGS_DEFAULT,
    .slots = slots,
};
