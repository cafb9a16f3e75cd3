/* rocktray._engine.Mail: the base of rocktray.Mail, and what reads the mails of a mailbox ahead. */
#define _GNU_SOURCE /* memrchr */
#include "engine.h"

#include <stddef.h>
#include <stdlib.h>
#include <string.h>
#include <structmember.h>

/* The first and the last second that a datetime can have. */
#define FIRST_SECOND (-62135596800)
#define LAST_SECOND 253402300799

/* the values that were used of mails of a mailbox, which are decoded ahead; READ is for a mail that was read at all */
#define READ (1u << VALUES)
struct use {
    PyObject_HEAD
    uint32_t wanted;
};

/* a mail; NULL is what is not known yet, or None */
struct mail {
    PyObject_HEAD
    PyObject *data, *raw, *limit, *place, *own, *all, *known, *use, *reading, *date_error;
    PyObject *values[VALUES];
    struct types *types;
    /* of a mail of a mailbox: its batch as long as its bytes are there, its number in it, and where it begins and ends in
     * the mailbox, unless its place was set */
    struct batch *batch;
    size_t number, start, end;
    /* its records until it has a reading, which takes over their block, and what was decoded with them */
    struct records records;
    const struct ahead *ahead;
    uint32_t code; /* of its refusal, or 0 */
    bool is_zone_known;
};

/* mails of a mailbox that were found and read together; each refers to the batch as long as it has no bytes of its own */
struct batch {
    PyObject_HEAD
    PyObject *data, *store;
    struct space *space;  /* with records of the mails, or NULL */
    size_t offset, count; /* the offset of the data in the mailbox */
    size_t used;          /* the number of mails that refer to it, and of calls that use it */
    struct mail **mails;  /* NULL for one that does not refer to it */
};

/* Begins that a mail or a call refers to a batch. */
static struct batch *begin_use(struct batch *batch)
{
    if (batch)
        batch->used++;
    return (struct batch *)Py_XNewRef((PyObject *)batch);
}

/* Frees the bytes and the space of a batch for other mails. */
static void empty(struct batch *batch)
{
    Py_CLEAR(batch->data);
    give_space(batch->store, batch->space);
    batch->space = NULL;
}

/* Ends that a mail or a call refers to a batch. */
static void end_use(struct batch *batch)
{
    if (batch && --batch->used == 0)
        empty(batch);
    Py_XDECREF((PyObject *)batch);
}

/* Ends that a mail refers to its batch. */
static void leave(struct mail *mail)
{
    struct batch *batch = mail->batch;
    mail->batch = NULL;
    if (batch)
        batch->mails[mail->number] = NULL;
    end_use(batch);
}

static void mail_free(PyObject *self)
{
    struct mail *mail = (struct mail *)self;
    PyTypeObject *type = Py_TYPE(self);
    PyObject *const objects[] = { mail->data, mail->raw,   mail->limit, mail->place,   mail->own,
                                  mail->all,  mail->known, mail->use,   mail->reading, mail->date_error };
    size_t k;
    free_records(&mail->records);
    leave(mail);
    for (k = 0; k < sizeof objects / sizeof *objects; k++)
        Py_XDECREF(objects[k]);
    for (k = 0; k < VALUES; k++)
        Py_XDECREF(mail->values[k]);
    ((freefunc)PyType_GetSlot(type, Py_tp_free))(self);
    Py_DECREF(type);
}

/* Notes that a value of a mail was used. */
static void note(const struct mail *mail, uint32_t value)
{
    if (mail->use)
        ((struct use *)mail->use)->wanted |= value;
}

static PyObject *mail_place(PyObject *self, void *unused)
{
    struct mail *mail = (struct mail *)self;
    (void)unused;
    if (!mail->place && mail->end && !(mail->place = Py_BuildValue("nn", (Py_ssize_t)mail->start, (Py_ssize_t)mail->end)))
        return NULL;
    return Py_NewRef(mail->place ? mail->place : Py_None);
}

/* Sets an object of a mail, or removes it. */
static int set(PyObject **object, PyObject *value)
{
    PyObject *old = *object;
    *object = Py_XNewRef(value);
    Py_XDECREF(old);
    return 0;
}

static int mail_set_place(PyObject *self, PyObject *place, void *unused)
{
    (void)unused;
    ((struct mail *)self)->end = 0;
    return set(&((struct mail *)self)->place, place);
}

/* Bytes. */

/* Gives a mail of a batch bytes and records of its own. Returns 0, or -1 for an error. */
static int own(struct mail *mail)
{
    struct batch *batch = mail->batch;
    const char *at = batch ? PyBytes_AsString(batch->data) + (mail->start - batch->offset) : NULL;
    PyObject *raw;
    if (!batch)
        return 0;
    if (!(raw = PyBytes_FromStringAndSize(at, (Py_ssize_t)mail->records.length)))
        return -1;
    if (mail->records.parts) {
        if (own_records(&mail->records) < 0) {
            Py_DECREF(raw);
            PyErr_NoMemory();
            return -1;
        }
        mail->ahead = mail->records.ahead;
        mail->reading = reading_of(mail->types, raw, &mail->records);
        mail->records.parts = NULL;
        if (!mail->reading) {
            mail->ahead = NULL;
            Py_DECREF(raw);
            return -1;
        }
    }
    mail->data = raw;
    mail->raw = Py_NewRef(raw);
    leave(mail);
    return 0;
}

static PyObject *mail_data(PyObject *self, void *unused)
{
    struct mail *mail = (struct mail *)self;
    (void)unused;
    if (own(mail) < 0)
        return NULL;
    if (!mail->data)
        PyErr_SetString(PyExc_AttributeError, "the mail has no bytes");
    return Py_XNewRef(mail->data);
}

static int mail_set_data(PyObject *self, PyObject *data, void *unused)
{
    struct mail *mail = (struct mail *)self;
    (void)unused;
    if (mail->data || mail->batch || !data) {
        PyErr_SetString(PyExc_AttributeError, "the bytes of a mail are set once");
        return -1;
    }
    return set(&mail->data, data);
}

static PyObject *mail_raw(PyObject *self, void *unused)
{
    struct mail *mail = (struct mail *)self;
    PyObject *data = mail_data(self, unused);
    if (data && !mail->raw)
        keep_first(&mail->raw, PyBytes_Check(data) ? Py_NewRef(data) : PyBytes_FromObject(data));
    Py_XDECREF(data);
    return Py_XNewRef(data ? mail->raw : NULL);
}

/* Reading. */

/* The types of the module: its own type of mails, of which that of a mail is made, has the module. */
static struct types *types_of_mail(PyObject *self)
{
    PyTypeObject *type = Py_TYPE(self);
    if (((struct mail *)self)->types)
        return ((struct mail *)self)->types;
    while (PyType_GetSlot(type, Py_tp_dealloc) != (void *)mail_free)
        type = PyType_GetSlot(type, Py_tp_base);
    return PyType_GetModuleState(type);
}

/* Reads a mail that was not read before. Returns 0, or -1 for an error; a refusal is no error. */
static int read_now(struct mail *mail)
{
    struct types *types = types_of_mail((PyObject *)mail);
    struct input input;
    struct records records;
    uint32_t code;
    PyObject *reading = NULL;
    if (!mail->data || !mail->limit) {
        PyErr_SetString(PyExc_AttributeError, "the mail has no bytes");
        return -1;
    }
    if (take_size(&records.limit, mail->limit) < 0 || take(&input, mail->data) < 0)
        return -1;
    code = read_input(&input, &records);
    give_back(&input);
    if (code == ROCKTRAY_NO_MEMORY) {
        PyErr_NoMemory();
        return -1;
    }
    if (code == ROCKTRAY_DONE && !(reading = reading_of(types, mail->data, &records)))
        return -1;
    /* another thread may have read it meanwhile */
    if (mail->reading)
        Py_XDECREF(reading);
    else
        mail->reading = reading;
    mail->code = code;
    return 0;
}

/* The reading of a mail, a borrowed reference. If the mail is refused, `raises` decides whether that is raised. NULL for
 * a refusal or an error. */
static PyObject *reading_in(PyObject *self, bool raises)
{
    struct mail *mail = (struct mail *)self;
    PyObject *place;
    if (mail->reading)
        return mail->reading;
    note(mail, READ);
    if (own(mail) < 0 || (!mail->reading && !mail->code && read_now(mail) < 0))
        return NULL;
    if (mail->reading || !raises)
        return mail->reading;
    place = mail_place(self, NULL);
    if (place)
        refuse(mail->code, place);
    Py_XDECREF(place);
    return NULL;
}

static PyObject *mail_reading(PyObject *self, void *unused)
{
    (void)unused;
    return Py_XNewRef(reading_in(self, true));
}

static PyObject *mail_read(PyObject *self, void *unused)
{
    struct mail *mail = (struct mail *)self;
    (void)unused;
    if (own(mail) < 0)
        return NULL;
    return Py_NewRef(mail->reading ? mail->reading : Py_None);
}

static PyObject *mail_error(PyObject *self, void *unused)
{
    (void)unused;
    if (((struct mail *)self)->records.parts) {
        note((struct mail *)self, READ);
        Py_RETURN_NONE;
    }
    if (reading_in(self, false))
        Py_RETURN_NONE;
    return PyErr_Occurred() ? NULL : reason_of(((struct mail *)self)->code);
}

static PyObject *mail_known(PyObject *self, void *unused)
{
    struct mail *mail = (struct mail *)self;
    (void)unused;
    if (!mail->known)
        mail->known = PyDict_New();
    return Py_XNewRef(mail->known);
}

/* Values. */

/* a value of a mail: what it is, and what finds it, given what was decoded ahead, if it was */
struct finder {
    enum value value;
    PyObject *(*find)(struct mail *mail, const struct ahead *ahead, enum value value);
};

/* A value of a mail, which is found once. A borrowed reference, or NULL for an error. */
static PyObject *value_in(PyObject *self, const struct finder *finder)
{
    struct mail *mail = (struct mail *)self;
    const struct ahead *ahead = mail->ahead && mail->ahead->known & 1u << finder->value ? mail->ahead : NULL;
    struct batch *batch;
    PyObject *found;
    if (mail->values[finder->value])
        return mail->values[finder->value];
    note(mail, READ | 1u << finder->value);
    /* to make an object may run code, as garbage is collected, or another thread, which detaches the mail */
    batch = begin_use(mail->batch);
    found = ahead || reading_in(self, true) ? finder->find(mail, ahead, finder->value) : NULL;
    end_use(batch);
    return keep_first(&mail->values[finder->value], found);
}

static PyObject *find_text(struct mail *mail, const struct ahead *ahead, enum value value)
{
    if (!ahead)
        return first_value(mail->reading, &value_names[value]);
    if (!ahead->has_subject)
        Py_RETURN_NONE;
    return decoded(strings_in(ahead) + ahead->subject_start, (Py_ssize_t)(ahead->subject_end - ahead->subject_start));
}

/* The addresses of a value that were decoded ahead, as a tuple. */
static PyObject *addresses_ahead(const struct ahead *ahead, enum value value, PyTypeObject *type)
{
    const struct rocktray_address *at, *end = addresses_in(ahead) + ahead->last[value];
    PyObject *tuple, *address;
    Py_ssize_t count = 0;
    for (at = addresses_in(ahead) + ahead->first[value]; at < end; at++)
        count += at->kind != ROCKTRAY_GROUP;
    tuple = PyTuple_New(count);
    while (tuple && at-- > addresses_in(ahead) + ahead->first[value]) {
        if (at->kind == ROCKTRAY_GROUP)
            continue;
        if ((address = address_of(type, strings_in(ahead), at)))
            PyTuple_SetItem(tuple, --count, address);
        else
            Py_CLEAR(tuple);
    }
    return tuple;
}

/* The addresses of a value, as a tuple. */
static PyObject *find_addresses(struct mail *mail, const struct ahead *ahead, enum value value)
{
    PyTypeObject *type = (PyTypeObject *)types_of_mail((PyObject *)mail)->address;
    PyObject *list, *tuple;
    if (ahead)
        return addresses_ahead(ahead, value, type);
    list = all_addresses(mail->reading, &value_names[value], type);
    tuple = list ? PyList_AsTuple(list) : NULL;
    Py_XDECREF(list);
    return tuple;
}

static PyObject *mail_value(PyObject *self, void *finder)
{
    return Py_XNewRef(value_in(self, finder));
}

/* The addresses of a value, as a list, which is the caller's to change. */
static PyObject *mail_list(PyObject *self, void *finder)
{
    PyObject *tuple = value_in(self, finder), *list;
    Py_ssize_t count = tuple ? PyTuple_Size(tuple) : 0, k;
    list = tuple ? PyList_New(count) : NULL;
    for (k = 0; list && k < count; k++)
        PyList_SetItem(list, k, Py_NewRef(PyTuple_GetItem(tuple, k)));
    return list;
}

/* Dates. */

/* The zone with an offset of less than a day. */
static PyObject *zone_of(struct types *types, int64_t offset)
{
    PyObject **kept = offset % QUARTER == 0 ? &types->zones[(offset + DAY) / QUARTER] : NULL, *zone;
    if (kept && *kept)
        return Py_NewRef(*kept);
    zone = PyObject_CallFunction(types->zone_of, "L", (long long)offset);
    /* another thread may have made it meanwhile */
    if (kept && !*kept)
        *kept = Py_XNewRef(zone);
    return zone;
}

/* The year, the month and the day that are `days` after 1970 began (proleptic Gregorian; years are counted from March). */
static void set_day(int64_t days, long numbers[3])
{
    int64_t since = days + 719468, era = since / 146097, of_era = since % 146097;
    int64_t year = (of_era - of_era / 1460 + of_era / 36524 - of_era / 146096) / 365;
    int64_t of_year = of_era - (365 * year + year / 4 - year / 100), month = (5 * of_year + 2) / 153;
    numbers[0] = (long)(year + era * 400 + (month >= 10));
    numbers[1] = (long)(month < 10 ? month + 3 : month - 9);
    numbers[2] = (long)(of_year - (153 * month + 2) / 5 + 1);
}

/* The datetime of these seconds in a zone, which the clocks of it show. It is made of the bytes of its pickle: the year,
 * the month, the day, the time of day, and the microseconds. */
static PyObject *time_in(struct types *types, int64_t seconds, PyObject *zone)
{
    int64_t days = (seconds - FIRST_SECOND) / DAY + FIRST_SECOND / DAY, rest = seconds - days * DAY;
    long day[3];
    char bytes[10] = { 0 };
    PyObject *arguments, *time;
    set_day(days, day);
    bytes[0] = (char)(day[0] >> 8);
    bytes[1] = (char)(day[0] & 0xff);
    bytes[2] = (char)day[1];
    bytes[3] = (char)day[2];
    bytes[4] = (char)(rest / 3600);
    bytes[5] = (char)(rest / 60 % 60);
    bytes[6] = (char)(rest % 60);
    arguments = pair_of(NULL, PyBytes_FromStringAndSize(bytes, sizeof bytes), Py_NewRef(zone));
    time = arguments ? PyObject_Call(types->datetime, arguments, NULL) : NULL;
    Py_XDECREF(arguments);
    return time;
}

/* The datetime of a date, in its zone, or in UTC if that is unknown or a day or more away; None if it is after the last
 * year of a datetime, or before the first. */
static PyObject *time_of(struct types *types, const struct date *date)
{
    int64_t offset = date->is_zone_known && date->offset > -DAY && date->offset < DAY ? date->offset : 0;
    PyObject *zone, *time;
    if (date->seconds < FIRST_SECOND || date->seconds > LAST_SECOND || date->seconds + offset < FIRST_SECOND ||
        date->seconds + offset > LAST_SECOND)
        Py_RETURN_NONE;
    zone = zone_of(types, offset);
    time = zone ? time_in(types, date->seconds + offset, zone) : NULL;
    Py_XDECREF(zone);
    return time;
}

static PyObject *find_date(struct mail *mail, const struct ahead *ahead, enum value value)
{
    struct date date = { .code = ROCKTRAY_ABSENT };
    PyObject *time, *error = NULL;
    (void)value;
    if (ahead)
        date = ahead->date;
    else if (first_date(mail->reading, &date) < 0)
        return NULL;
    mail->is_zone_known = date.code != ROCKTRAY_DONE || date.is_zone_known;
    if (date.code == ROCKTRAY_NO_MEMORY)
        return PyErr_NoMemory();
    time = date.code == ROCKTRAY_DONE ? time_of(types_of_mail((PyObject *)mail), &date) : Py_NewRef(Py_None);
    if (time == Py_None && date.code != ROCKTRAY_ABSENT) {
        error = date.code == ROCKTRAY_DONE ? PyUnicode_FromString("the date is after the year 9999") : reason_of(date.code);
        if (!error)
            Py_CLEAR(time);
        Py_XDECREF(mail->date_error);
        mail->date_error = error;
    }
    return time;
}

static struct finder subject = { SUBJECT, find_text };
static struct finder date = { DATE, find_date };
static struct finder from = { FROM, find_addresses };
static struct finder to = { TO, find_addresses };
static struct finder cc = { CC, find_addresses };
static struct finder bcc = { BCC, find_addresses };
static struct finder sender = { SENDER, find_addresses };
static struct finder reply_to = { REPLY_TO, find_addresses };

static PyObject *mail_date_error(PyObject *self, void *unused)
{
    struct mail *mail = (struct mail *)self;
    (void)unused;
    if (!value_in(self, &date))
        return NULL;
    return Py_NewRef(mail->date_error ? mail->date_error : Py_None);
}

static PyObject *mail_is_zone_known(PyObject *self, void *unused)
{
    (void)unused;
    return value_in(self, &date) ? PyBool_FromLong(((struct mail *)self)->is_zone_known) : NULL;
}

#define OBJECT(name, member) { name, T_OBJECT, offsetof(struct mail, member), 0, NULL }

static PyMemberDef mail_members[] = {
    OBJECT("_limit", limit),
    OBJECT("_own", own),
    OBJECT("_all", all),
    { NULL, 0, 0, 0, NULL },
};

static PyGetSetDef mail_getters[] = {
    { "place", mail_place, mail_set_place,
      "The offsets at which it begins and ends in its mailbox, or `None` outside of one.", NULL },
    { "raw", mail_raw, NULL, "The bytes of the mail.", NULL },
    { "_data", mail_data, mail_set_data, NULL, NULL },
    { "_reading", mail_reading, NULL, NULL, NULL },
    { "_read", mail_read, NULL, NULL, NULL },
    { "_known", mail_known, NULL, NULL, NULL },
    { "error", mail_error, NULL,
      "Why the mail is refused, or `None`. Everything else about a refused mail raises `Refused`, but for its bytes\n"
      "and `header`, which reads the headers alone.",
      NULL },
    { "subject", mail_value, NULL, "The value of the first Subject, or `None`.", &subject },
    { "from_", mail_list, NULL, "The mailboxes in From, each a pair of a name and an address.", &from },
    { "to", mail_list, NULL, "The mailboxes in To.", &to },
    { "cc", mail_list, NULL, "The mailboxes in Cc.", &cc },
    { "bcc", mail_list, NULL, "The mailboxes in Bcc.", &bcc },
    { "sender", mail_list, NULL, "The mailbox in Sender: who sent the mail, if that is not its only author.", &sender },
    { "reply_to", mail_list, NULL, "The mailboxes in Reply-To.", &reply_to },
    { "date", mail_value, NULL,
      "The time in the first Date, in the zone of the sender, or in UTC if that is unknown; `None` if it is missing or\n"
      "cannot be read: `date_error` says why.",
      &date },
    { "date_error", mail_date_error, NULL, "What is missing or wrong in the first Date; otherwise `None`.", NULL },
    { "is_date_zone_known", mail_is_zone_known, NULL,
      "Whether the date gives its zone. Otherwise it is read as UTC.", NULL },
    { NULL, NULL, NULL, NULL, NULL },
};

static PyType_Slot mail_slots[] = {
    { Py_tp_dealloc, mail_free },
    { Py_tp_members, mail_members },
    { Py_tp_getset, mail_getters },
    { 0, NULL },
};

PyType_Spec mail_spec = {
    .name = "rocktray._engine.Mail",
    .basicsize = sizeof(struct mail),
    .flags = Py_TPFLAGS_DEFAULT | Py_TPFLAGS_BASETYPE,
    .slots = mail_slots,
};

/* Making mails. */

PyObject *parse_mail(PyObject *module, PyObject *const *arguments, Py_ssize_t count)
{
    struct types *types = PyModule_GetState(module);
    PyTypeObject *type;
    struct input input;
    struct records records;
    struct mail *mail;
    uint32_t code;
    if (!is_count(count, 3) || take_type(&type, arguments[0], (PyTypeObject *)types->mail) < 0 ||
        take_size(&records.limit, arguments[2]) < 0 || take(&input, arguments[1]) < 0)
        return NULL;
    code = read_input(&input, &records);
    give_back(&input);
    if (code != ROCKTRAY_DONE)
        return no_result(code);
    mail = (struct mail *)PyType_GenericAlloc(type, 0);
    if (!mail) {
        free(records.parts);
        return NULL;
    }
    mail->types = types;
    mail->data = Py_NewRef(arguments[1]);
    mail->limit = Py_NewRef(arguments[2]);
    if (!(mail->reading = reading_of(types, arguments[1], &records)))
        Py_CLEAR(mail);
    return (PyObject *)mail;
}

/* Mails of a mailbox. */

static void batch_free(PyObject *self)
{
    struct batch *batch = (struct batch *)self;
    PyTypeObject *type = Py_TYPE(self);
    empty(batch);
    Py_XDECREF(batch->store);
    free(batch->mails);
    ((freefunc)PyType_GetSlot(type, Py_tp_free))(self);
    Py_DECREF(type);
}

/* detach(): gives each mail of the batch that is still there bytes of its own, so that the others can be freed. */
static PyObject *batch_detach(PyObject *self, PyObject *unused)
{
    struct batch *batch = (struct batch *)self;
    size_t k;
    (void)unused;
    for (k = 0; k < batch->count; k++)
        if (batch->mails[k] && own(batch->mails[k]) < 0)
            PyErr_Clear(); /* without memory it stays as it is */
    Py_RETURN_NONE;
}

static PyMethodDef batch_methods[] = {
    { "detach", batch_detach, METH_NOARGS, NULL },
    { NULL, NULL, 0, NULL },
};

static PyType_Slot batch_slots[] = {
    { Py_tp_dealloc, batch_free },
    { Py_tp_methods, batch_methods },
    { 0, NULL },
};

PyType_Spec batch_spec = {
    .name = "rocktray._engine.Batch",
    .basicsize = sizeof(struct batch),
    .flags = Py_TPFLAGS_DEFAULT | Py_TPFLAGS_DISALLOW_INSTANTIATION,
    .slots = batch_slots,
};

/* Whether an empty line ends at `end` in the bytes, and the library takes the line after it for a separator. */
static bool separates(const uint8_t *at, size_t length, size_t end)
{
    const uint8_t *line;
    size_t start = end > 0 && at[end - 1] == '\r' ? end - 1 : end, found, to, next;
    if (length - end < 6 || memcmp(at + end, "\nFrom ", 6) != 0 || start < 1 || at[start - 1] != '\n')
        return false;
    line = memchr(at + end + 1, '\n', length - end - 1);
    length = line ? (size_t)(line + 1 - (at + start)) : length - start;
    return rocktray_next_mail(at + start, length, false, &found, &to, &next) == ROCKTRAY_DONE;
}

size_t separator_in(const uint8_t *at, size_t length)
{
    const uint8_t *end = length > 0 ? memrchr(at, '\n', length - 1) : NULL;
    while (end && (end = memrchr(at, '\n', (size_t)(end - at))))
        if (end[1] == 'F' && separates(at, length, (size_t)(end - at)))
            return (size_t)(end - at) + 1;
    return 0;
}

/* Whether an object is bytes, and of no type made of theirs, which may give another buffer (PEP 688); otherwise sets a
 * TypeError. */
static bool is_bytes(PyObject *object)
{
    if (!PyBytes_CheckExact(object))
        PyErr_SetString(PyExc_TypeError, "bytes are needed");
    return PyBytes_CheckExact(object);
}

PyObject *last_separator(PyObject *module, PyObject *data)
{
    struct input input;
    size_t found;
    (void)module;
    if (!is_bytes(data) || take(&input, data) < 0)
        return NULL;
    Py_BEGIN_ALLOW_THREADS
    found = separator_in(input.at, input.length);
    Py_END_ALLOW_THREADS
    give_back(&input);
    return PyLong_FromSize_t(found);
}

/* a search for mails, which are read as they are found */
struct search {
    struct types *types;
    PyTypeObject *type;
    PyObject *limit, *use; /* of each mail */
    PyObject *store;
    struct space *space; /* for the records, or NULL */
    struct input input;
    size_t at, last, offset; /* the offset of the data in the mailbox */
    size_t most, bytes;      /* the most mails, and the most bytes unless one mail has more */
    size_t most_items;       /* the limit as a number */
    bool is_counted;
    uint32_t wanted;
    size_t count;
    struct item {
        size_t start;
        struct records records;
        uint32_t code; /* ROCKTRAY_ABSENT if nothing is to be read */
    } *items;
};

/* Finds the next mail, up to the separator at `last`. Returns whether there is one. */
static bool find_mail(struct search *search, struct item *item)
{
    size_t start, end, next;
    uint32_t code = ROCKTRAY_ABSENT;
    if (search->at < search->last)
        code = rocktray_next_mail(search->input.at + search->at, search->input.length - search->at, search->is_counted,
                                  &start, &end, &next);
    if (code != ROCKTRAY_DONE || search->at + next > search->last) {
        search->at = search->last;
        return false;
    }
    item->start = search->at + start;
    item->records.at = search->input.at + item->start;
    item->records.length = end - start;
    search->at += next;
    return true;
}

/* Finds and reads mails, without Python's lock. */
static void read_found(struct search *search)
{
    size_t first = search->at;
    while (search->count < search->most && (search->count == 0 || search->at - first < search->bytes)) {
        struct item *item = &search->items[search->count];
        if (!find_mail(search, item))
            return;
        item->records.limit = search->most_items;
        item->records.wanted = search->wanted & ~READ;
        item->records.parts = NULL;
        item->records.space = search->space;
        item->code = search->wanted ? read_records(&item->records) : ROCKTRAY_ABSENT;
        search->count++;
    }
}

/* A mail of a batch, which takes over the records of the item. */
static PyObject *mail_of(struct batch *batch, const struct search *search, struct item *item)
{
    struct mail *mail = (struct mail *)PyType_GenericAlloc(search->type, 0);
    if (!mail)
        return NULL;
    mail->types = search->types;
    mail->limit = Py_NewRef(search->limit);
    mail->use = Py_NewRef(search->use);
    mail->start = batch->offset + item->start;
    mail->end = mail->start + item->records.length;
    mail->records = item->records;
    mail->batch = begin_use(batch);
    mail->number = batch->count;
    batch->mails[batch->count++] = mail;
    if (item->code == ROCKTRAY_DONE)
        mail->ahead = item->records.ahead;
    else
        mail->records.parts = NULL;
    if (item->code != ROCKTRAY_ABSENT && item->code != ROCKTRAY_NO_MEMORY)
        mail->code = item->code; /* without memory the mail is read again when it is used */
    item->code = ROCKTRAY_ABSENT;
    return (PyObject *)mail;
}

/* A batch for the mails that were found, which takes over the space with their records. */
static struct batch *batch_of(struct search *search)
{
    struct batch *batch = (struct batch *)PyType_GenericAlloc((PyTypeObject *)search->types->batch, 0);
    if (!batch)
        return NULL;
    batch->data = Py_NewRef(search->input.object);
    batch->store = Py_NewRef(search->store);
    batch->space = search->space;
    search->space = NULL;
    batch->offset = search->offset;
    batch->mails = malloc((search->count + 1) * sizeof *batch->mails);
    if (!batch->mails) {
        Py_CLEAR(batch);
        PyErr_NoMemory();
    }
    return batch;
}

/* The mails that were found, from the last to the first, their batch, and where the next one begins. */
static PyObject *mails_of(struct search *search)
{
    struct batch *batch = batch_of(search), *used = begin_use(batch);
    PyObject *list = batch ? PyList_New((Py_ssize_t)search->count) : NULL;
    size_t k;
    for (k = 0; list && k < search->count; k++) {
        PyObject *mail = mail_of(batch, search, &search->items[k]);
        if (mail)
            PyList_SetItem(list, (Py_ssize_t)(search->count - 1 - k), mail);
        else
            Py_CLEAR(list);
    }
    list = list ? Py_BuildValue("NOn", list, (PyObject *)batch, (Py_ssize_t)search->at) : NULL;
    end_use(used);
    Py_XDECREF((PyObject *)batch);
    return list;
}

/* Takes the bytes, their offset in the mailbox, and where the first mail begins and the last one ends, from a tuple.
 * Returns 0, or -1 for an error. */
static int take_found(struct search *search, PyObject *found)
{
    PyObject *data;
    Py_ssize_t offset, at, last;
    if (!PyTuple_Check(found)) {
        PyErr_SetString(PyExc_TypeError, "a tuple is needed");
        return -1;
    }
    if (!PyArg_ParseTuple(found, "Onnn", &data, &offset, &at, &last))
        return -1;
    if (offset < 0 || at < 0 || last < 0) {
        PyErr_SetString(PyExc_ValueError, "an offset is negative");
        return -1;
    }
    if (!is_bytes(data) || take(&search->input, data) < 0)
        return -1;
    search->offset = (size_t)offset;
    search->at = (size_t)at;
    search->last = (size_t)last < search->input.length ? (size_t)last : search->input.length;
    return 0;
}

/* Takes the arguments of read_mails. Returns 0, or -1 for an error. */
static int take_search(struct search *search, PyObject *const *arguments)
{
    if (take_type(&search->type, arguments[0], (PyTypeObject *)search->types->mail) < 0 ||
        take_size(&search->most_items, arguments[2]) < 0 || take_size(&search->most, arguments[5]) < 0 ||
        take_size(&search->bytes, arguments[6]) < 0)
        return -1;
    search->limit = arguments[2];
    search->use = arguments[3];
    search->is_counted = arguments[4] == Py_True;
    search->most = search->most < MOST_MAILS ? search->most : MOST_MAILS;
    if (Py_TYPE(search->use) != (PyTypeObject *)search->types->use) {
        PyErr_SetString(PyExc_TypeError, "a Use is needed");
        return -1;
    }
    search->wanted = ((struct use *)search->use)->wanted;
    search->store = arguments[7];
    if (Py_TYPE(search->store) != (PyTypeObject *)search->types->store) {
        PyErr_SetString(PyExc_TypeError, "a Store is needed");
        return -1;
    }
    return take_found(search, arguments[1]);
}

PyObject *read_mails(PyObject *module, PyObject *const *arguments, Py_ssize_t count)
{
    struct search search = { .types = PyModule_GetState(module) };
    PyObject *made = NULL;
    size_t k;
    if (!is_count(count, 8) || take_search(&search, arguments) < 0)
        return NULL;
    search.items = malloc(search.most * sizeof *search.items + 1);
    if (!search.items) {
        PyErr_NoMemory();
    } else {
        search.space = search.wanted ? take_space(search.store) : NULL;
        Py_BEGIN_ALLOW_THREADS
        read_found(&search);
        Py_END_ALLOW_THREADS
        made = mails_of(&search);
    }
    for (k = 0; k < search.count; k++)
        if (search.items[k].code == ROCKTRAY_DONE)
            free_records(&search.items[k].records);
    give_space(search.store, search.space);
    free(search.items);
    give_back(&search.input);
    return made;
}

static PyType_Slot use_slots[] = {
    { 0, NULL },
};

PyType_Spec use_spec = {
    .name = "rocktray._engine.Use",
    .basicsize = sizeof(struct use),
    .flags = Py_TPFLAGS_DEFAULT,
    .slots = use_slots,
};

/* Mails that were read ahead. */

/* the base of rocktray.Mailbox: an iterator over the mails in a list, of which the last is the next */
struct mails {
    PyObject_HEAD
    PyObject *ahead;
};

static void mails_free(PyObject *self)
{
    PyTypeObject *type = Py_TYPE(self);
    Py_XDECREF(((struct mails *)self)->ahead);
    ((freefunc)PyType_GetSlot(type, Py_tp_free))(self);
    Py_DECREF(type);
}

/* Reads on, which puts mails into the list. Returns 1, 0 if there are no more, or -1 for an error. */
static int read_ahead(PyObject *self)
{
    PyObject *found = PyObject_CallMethod(self, "_read_ahead", NULL);
    int result = found ? PyObject_IsTrue(found) : -1;
    Py_XDECREF(found);
    return result;
}

static PyObject *mails_next(PyObject *self)
{
    struct mails *mails = (struct mails *)self;
    do {
        PyObject *ahead = mails->ahead;
        Py_ssize_t count = ahead && PyList_Check(ahead) ? PyList_Size(ahead) : 0;
        if (count > 0) {
            PyObject *mail = Py_XNewRef(PyList_GetItem(ahead, count - 1));
            if (mail && PyList_SetSlice(ahead, count - 1, count, NULL) < 0)
                Py_CLEAR(mail);
            return mail;
        }
    } while (read_ahead(self) > 0);
    return NULL;
}

static PyMemberDef mails_members[] = {
    { "_ahead", T_OBJECT_EX, offsetof(struct mails, ahead), 0, NULL },
    { NULL, 0, 0, 0, NULL },
};

static PyType_Slot mails_slots[] = {
    { Py_tp_dealloc, mails_free },
    { Py_tp_iter, PyObject_SelfIter },
    { Py_tp_iternext, mails_next },
    { Py_tp_members, mails_members },
    { 0, NULL },
};

PyType_Spec mails_spec = {
    .name = "rocktray._engine.Mails",
    .basicsize = sizeof(struct mails),
    .flags = Py_TPFLAGS_DEFAULT | Py_TPFLAGS_BASETYPE,
    .slots = mails_slots,
};
