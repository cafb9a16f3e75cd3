/* rocktray._engine: the calls of rocktray.h for Python, over the stable ABI. rocktray/_engine.pyi declares all of it.
 *
 * An input is any object with a contiguous buffer, and nothing of it is copied. An input that is refused raises what
 * rocktray._library.refusal returns for the code, and what is absent is None.
 *
 * Python's lock is free during a call that reads many bytes which no thread can change: a shorter call ends
 * before another thread has taken the lock. The library keeps no state and a Reading never changes, so nothing here
 * needs a lock of its own.
 */
#include "engine.h"

#include <stdlib.h>

/* The least numbers of bytes that are decoded, and of a mail whose parts are found, without Python's lock. To hand it to
 * another thread and to wait for it again takes tens of microseconds, as these do. */
#define FREE 32768
#define FREE_MAIL 262144

/* Inputs. */

/* Takes all bytes of an object, until give_back. Returns 0, or -1 for an error. */
int take(struct input *input, PyObject *object)
{
    if (PyObject_GetBuffer(object, &input->view, PyBUF_SIMPLE) < 0)
        return -1;
    input->object = object;
    input->at = input->view.buf;
    input->length = (size_t)input->view.len;
    return 0;
}

void give_back(struct input *input)
{
    PyBuffer_Release(&input->view);
}

/* Selects the bytes from `start` up to `end` of those that were taken. Returns 0, or -1 for an error: then they are
 * given back. */
int narrow(struct input *input, uint64_t start, uint64_t end)
{
    if (start > end || end > (uint64_t)input->view.len) {
        PyBuffer_Release(&input->view);
        PyErr_SetString(PyExc_BufferError, "the bytes of the mail became fewer while it was in use");
        return -1;
    }
    input->at = (const uint8_t *)input->view.buf + start;
    input->length = end - start;
    return 0;
}

/* Whether an object is an mmap. -1 for an error. */
static int is_map(PyObject *object)
{
    PyObject *module = PyImport_ImportModule("mmap"), *type = module ? PyObject_GetAttrString(module, "mmap") : NULL;
    int found = type ? PyObject_IsInstance(object, type) : -1;
    Py_XDECREF(type);
    Py_XDECREF(module);
    return found;
}

/* Whether no thread can change the bytes: they are those of bytes, or of an mmap for reading alone. A type made of that of
 * bytes may give another buffer (PEP 688). */
static bool is_constant(const struct input *input)
{
    PyObject *owner;
    int found;
    if (PyBytes_CheckExact(input->object) || !input->view.readonly)
        return input->view.readonly;
    owner = Py_TYPE(input->object) == &PyMemoryView_Type ? PyObject_GetAttrString(input->object, "obj")
                                                         : Py_NewRef(input->object);
    found = !owner ? -1 : PyBytes_CheckExact(owner) ? 1 : is_map(owner);
    Py_XDECREF(owner);
    if (found < 0)
        PyErr_Clear();
    return found == 1;
}

/* Answers. */

bool is_mail_read_freely(const struct input *input)
{
    return input->length >= FREE_MAIL && is_constant(input);
}

/* Whether these bytes are decoded without Python's lock. */
static bool is_decoded_freely(const struct input *input)
{
    return input->length >= FREE && is_constant(input);
}

/* Makes the call, with Python's lock or without it. */
uint32_t run(struct request *request, void *buffer, size_t capacity, size_t *needed)
{
    uint32_t code;
    if (!is_decoded_freely(&request->input))
        return request->call(request, buffer, capacity, needed);
    Py_BEGIN_ALLOW_THREADS
    code = request->call(request, buffer, capacity, needed);
    Py_END_ALLOW_THREADS
    return code;
}

/* What a call without a result returns: None if the code is ROCKTRAY_ABSENT, otherwise NULL, with an exception. */
PyObject *no_result(uint32_t code)
{
    if (code == ROCKTRAY_ABSENT)
        Py_RETURN_NONE;
    if (code == ROCKTRAY_NO_MEMORY)
        return PyErr_NoMemory();
    return refuse(code, NULL);
}

PyObject *refuse(uint32_t code, PyObject *place)
{
    PyObject *module = PyImport_ImportModule("rocktray._library");
    PyObject *error = module ? PyObject_CallMethod(module, "refusal", "IO", (unsigned)code, place ? place : Py_None) : NULL;
    if (error)
        PyErr_SetObject((PyObject *)Py_TYPE(error), error);
    Py_XDECREF(error);
    Py_XDECREF(module);
    return NULL;
}

/* A buffer on the stack, which is as long as most results are. */
struct few {
    char *at;
    size_t capacity;
};

/* The result of a call in a buffer, which is `few` or was allocated, given a guess of its length. Returns the code. */
static uint32_t fill(struct request *request, size_t guess, struct few few, char **buffer, size_t *length)
{
    uint32_t code = ROCKTRAY_TOO_SHORT;
    *buffer = few.at;
    *length = guess;
    if (guess <= few.capacity)
        code = run(request, few.at, few.capacity, length);
    while (code == ROCKTRAY_TOO_SHORT) {
        size_t capacity = *length;
        if (*buffer != few.at)
            free(*buffer);
        *buffer = malloc(capacity);
        code = *buffer ? run(request, *buffer, capacity, length) : ROCKTRAY_NO_MEMORY;
    }
    return code;
}

static PyObject *result_in(struct request *request, size_t guess, maker make, struct few few)
{
    char *buffer;
    size_t length;
    uint32_t code = fill(request, guess, few, &buffer, &length);
    PyObject *made = code == ROCKTRAY_DONE ? make(buffer, (Py_ssize_t)length) : no_result(code);
    if (buffer != few.at)
        free(buffer);
    return made;
}

static PyObject *long_result_of(struct request *request, size_t guess, maker make)
{
    char few[LONG];
    return result_in(request, guess, make, (struct few){ few, LONG });
}

static PyObject *short_result_of(struct request *request, size_t guess, maker make)
{
    char few[SHORT];
    return result_in(request, guess, make, (struct few){ few, SHORT });
}

PyObject *result_of(struct request *request, size_t guess, maker make)
{
    return (guess <= SHORT ? short_result_of : long_result_of)(request, guess, make);
}

PyObject *decoded(const char *buffer, Py_ssize_t length)
{
    return PyUnicode_DecodeUTF8(buffer, length, NULL);
}

PyObject *text_of(struct request *request, size_t guess)
{
    return result_of(request, guess, decoded);
}

PyObject *result_and_back(struct request *request, size_t guess, maker make)
{
    PyObject *made = result_of(request, guess, make);
    give_back(&request->input);
    return made;
}

PyObject *text_and_back(struct request *request, size_t guess)
{
    return result_and_back(request, guess, decoded);
}

PyObject *bytes_and_back(struct request *request, size_t guess)
{
    return result_and_back(request, guess, PyBytes_FromStringAndSize);
}

PyObject *sized_bytes_and_back(struct request *request, size_t size)
{
    PyObject *bytes = PyBytes_FromStringAndSize(NULL, (Py_ssize_t)size);
    size_t length = 0;
    if (bytes && (run(request, PyBytes_AsString(bytes), size, &length) != ROCKTRAY_DONE || length != size)) {
        Py_DECREF(bytes);
        return bytes_and_back(request, size);
    }
    give_back(&request->input);
    return bytes;
}

PyObject *keep_first(PyObject **kept, PyObject *found)
{
    if (!*kept)
        *kept = found;
    else if (found)
        Py_DECREF(found);
    else
        PyErr_Clear();
    return *kept;
}

int append(PyObject *list, PyObject *item)
{
    int result = item ? PyList_Append(list, item) : -1;
    Py_XDECREF(item);
    return result;
}

PyObject *pair_of(PyTypeObject *type, PyObject *first, PyObject *second)
{
    PyObject *pair = !first || !second ? NULL : type ? PyType_GenericAlloc(type, 2) : PyTuple_New(2);
    if (pair) {
        PyTuple_SetItem(pair, 0, first);
        PyTuple_SetItem(pair, 1, second);
        return pair;
    }
    Py_XDECREF(first);
    Py_XDECREF(second);
    return NULL;
}

/* Arguments. */

bool is_count(Py_ssize_t count, Py_ssize_t wanted)
{
    if (count != wanted)
        PyErr_Format(PyExc_TypeError, "%zd arguments are needed, not %zd", wanted, count);
    return count == wanted;
}

int take_size(size_t *size, PyObject *object)
{
    *size = PyLong_AsSize_t(object);
    return *size == (size_t)-1 && PyErr_Occurred() ? -1 : 0;
}

int take_name(const uint8_t **name, size_t *length, PyObject *object)
{
    char *at;
    Py_ssize_t count;
    if (PyBytes_AsStringAndSize(object, &at, &count) < 0)
        return -1;
    *name = (const uint8_t *)at;
    *length = (size_t)count;
    return 0;
}

int take_type(PyTypeObject **type, PyObject *object, PyTypeObject *base)
{
    *type = (PyTypeObject *)object;
    if (PyType_Check(object) && PyType_IsSubtype(*type, base))
        return 0;
    PyErr_SetString(PyExc_TypeError, "another type is needed");
    return -1;
}

/* Takes the UTF-8 of a text, which is not given back. Returns 0, or -1 for an error. */
static int take_text(struct input *input, PyObject *text)
{
    Py_ssize_t length = 0;
    input->object = text;
    input->view.readonly = 0;
    input->at = (const uint8_t *)PyUnicode_AsUTF8AndSize(text, &length);
    input->length = (size_t)length;
    return input->at ? 0 : -1;
}

/* Functions. */

CALL(json, INPUT)
CALL(header, INPUT, OTHER, it->number)
CALL(raw_header, INPUT, OTHER, it->number)
CALL(ids, INPUT, it->choice)
CALL(html_text, INPUT, it->choice)
CALL(readable_text, INPUT, it->choice)
CALL(reason, (uint32_t)it->number)

static PyObject *version(PyObject *module, PyObject *none)
{
    (void)module;
    (void)none;
    return PyLong_FromUnsignedLong(rocktray_version());
}

static PyObject *reason(PyObject *module, PyObject *code)
{
    struct request it = { .call = call_reason };
    (void)module;
    return take_size(&it.number, code) < 0 ? NULL : text_of(&it, 0);
}

PyObject *reason_of(uint32_t code)
{
    struct request it = { .call = call_reason, .number = code };
    return text_of(&it, 0);
}

static PyObject *json(PyObject *module, PyObject *data)
{
    struct request it = { .call = call_json };
    (void)module;
    return take(&it.input, data) < 0 ? NULL : bytes_and_back(&it, 2 * it.input.length + LONG);
}

/* Takes an object, a name and a number, which are the arguments. Returns 0, or -1 for an error. */
static int take_named(struct request *it, PyObject *const *arguments, Py_ssize_t count)
{
    if (!is_count(count, 3) || take_name(&it->other, &it->other_length, arguments[1]) < 0 ||
        take_size(&it->number, arguments[2]) < 0)
        return -1;
    return take(&it->input, arguments[0]);
}

static PyObject *header(PyObject *module, PyObject *const *arguments, Py_ssize_t count)
{
    struct request it = { .call = call_header };
    (void)module;
    return take_named(&it, arguments, count) < 0 ? NULL : text_and_back(&it, 0);
}

static PyObject *raw_header(PyObject *module, PyObject *const *arguments, Py_ssize_t count)
{
    struct request it = { .call = call_raw_header };
    (void)module;
    return take_named(&it, arguments, count) < 0 ? NULL : bytes_and_back(&it, 0);
}

static PyObject *ids(PyObject *module, PyObject *const *arguments, Py_ssize_t count)
{
    struct request it = { .call = call_ids };
    (void)module;
    if (!is_count(count, 2) || take_text(&it.input, arguments[0]) < 0)
        return NULL;
    it.choice = arguments[1] == Py_True;
    return text_of(&it, it.input.length);
}

static PyObject *html_text(PyObject *module, PyObject *const *arguments, Py_ssize_t count)
{
    struct request it = { .call = call_html_text };
    (void)module;
    if (!is_count(count, 2) || take_text(&it.input, arguments[0]) < 0)
        return NULL;
    it.choice = arguments[1] == Py_True;
    return text_of(&it, it.input.length);
}

static PyObject *readable_text(PyObject *module, PyObject *const *arguments, Py_ssize_t count)
{
    struct request it = { .call = call_readable_text };
    (void)module;
    if (!is_count(count, 2) || take(&it.input, arguments[0]) < 0)
        return NULL;
    it.choice = arguments[1] == Py_True;
    return text_and_back(&it, it.input.length);
}

PyObject *date_of(const char *text, Py_ssize_t length)
{
    int64_t seconds = 0, offset = 0;
    bool is_zone_known = false;
    uint32_t code = rocktray_date_and_offset(text, (size_t)length, &seconds, &offset, &is_zone_known);
    if (code != ROCKTRAY_DONE)
        return no_result(code);
    return pair_of(NULL, PyLong_FromLongLong(seconds),
                   is_zone_known ? PyLong_FromLongLong(offset) : Py_NewRef(Py_None));
}

static PyObject *date(PyObject *module, PyObject *text)
{
    struct input input;
    (void)module;
    return take_text(&input, text) < 0 ? NULL : date_of((const char *)input.at, (Py_ssize_t)input.length);
}

/* a mailbox that is searched, and where its mails are */
struct search {
    struct input input;
    size_t at, last, count;
    bool is_counted;
    size_t (*found)[3];
    size_t found_count;
};

/* Finds the next mails, but at most `count`, and those alone whose separator begins at `last` or before. */
static void find_mails(struct search *search)
{
    while (search->found_count < search->count) {
        size_t *found = search->found[search->found_count], k;
        uint32_t code = rocktray_next_mail(search->input.at + search->at, search->input.length - search->at,
                                           search->is_counted, &found[0], &found[1], &found[2]);
        if (code != ROCKTRAY_DONE || search->at + found[2] > search->last)
            return;
        for (k = 0; k < 3; k++)
            found[k] += search->at;
        search->at = found[2];
        search->found_count++;
    }
}

/* The mails that were found, as a list of tuples. */
static PyObject *found_mails(const struct search *search)
{
    PyObject *list = PyList_New((Py_ssize_t)search->found_count);
    size_t k;
    for (k = 0; list && k < search->found_count; k++) {
        const size_t *found = search->found[k];
        PyObject *mail = Py_BuildValue("nnn", (Py_ssize_t)found[0], (Py_ssize_t)found[1], (Py_ssize_t)found[2]);
        if (!mail) {
            Py_DECREF(list);
            return NULL;
        }
        PyList_SetItem(list, (Py_ssize_t)k, mail);
    }
    return list;
}

static PyObject *mails(PyObject *module, PyObject *const *arguments, Py_ssize_t count)
{
    struct search search = { .found_count = 0 };
    PyObject *list;
    (void)module;
    if (!is_count(count, 5) || take_size(&search.at, arguments[1]) < 0 || take_size(&search.last, arguments[2]) < 0 ||
        take_size(&search.count, arguments[4]) < 0 || take(&search.input, arguments[0]) < 0)
        return NULL;
    search.is_counted = arguments[3] == Py_True;
    search.count = search.count < MOST_MAILS ? search.count : MOST_MAILS; /* so that the size below cannot overflow */
    if (search.at > search.input.length) {
        give_back(&search.input);
        PyErr_SetString(PyExc_ValueError, "the first mail begins after the data");
        return NULL;
    }
    search.found = malloc(search.count * sizeof *search.found + 1);
    if (!search.found) {
        give_back(&search.input);
        return PyErr_NoMemory();
    }
    if (is_constant(&search.input)) {
        Py_BEGIN_ALLOW_THREADS
        find_mails(&search);
        Py_END_ALLOW_THREADS
    } else {
        find_mails(&search);
    }
    give_back(&search.input);
    list = found_mails(&search);
    free(search.found);
    return list;
}

CALL(bounced_id, INPUT)
CALL(safe_name, INPUT)
CALL(unquoted, INPUT)

static PyObject *bounced_id(PyObject *module, PyObject *data)
{
    struct request it = { .call = call_bounced_id };
    (void)module;
    return take(&it.input, data) < 0 ? NULL : text_and_back(&it, 0);
}

static PyObject *safe_name(PyObject *module, PyObject *name)
{
    struct request it = { .call = call_safe_name };
    (void)module;
    return take_text(&it.input, name) < 0 ? NULL : text_of(&it, 0);
}

static PyObject *unquoted(PyObject *module, PyObject *data)
{
    struct request it = { .call = call_unquoted };
    (void)module;
    return take(&it.input, data) < 0 ? NULL : bytes_and_back(&it, it.input.length);
}

/* The type of the module with this name, or NULL. */
static PyObject *add_type(PyObject *module, const char *name, PyType_Spec *spec)
{
    PyObject *type = PyType_FromModuleAndSpec(module, spec, NULL);
    if (type && PyModule_AddObjectRef(module, name, type) < 0)
        Py_CLEAR(type);
    return type;
}

/* An object of another module, or NULL. */
static PyObject *object_of(const char *module, const char *name)
{
    PyObject *from = PyImport_ImportModule(module), *object = from ? PyObject_GetAttrString(from, name) : NULL;
    Py_XDECREF(from);
    return object;
}

static int fill_module(PyObject *module)
{
    struct types *types = PyModule_GetState(module);
    return (types->reading = add_type(module, "Reading", &reading_spec)) &&
                   (types->header = add_type(module, "Header", &header_spec)) &&
                   (types->node = add_type(module, "Node", &node_spec)) &&
                   (types->mail = add_type(module, "Mail", &mail_spec)) &&
                   (types->mails = add_type(module, "Mails", &mails_spec)) &&
                   (types->use = add_type(module, "Use", &use_spec)) &&
                   (types->batch = add_type(module, "Batch", &batch_spec)) &&
                   (types->store = add_type(module, "Store", &store_spec)) &&
                   (types->datetime = object_of("datetime", "datetime"))
               ? 0
               : -1;
}

/* values(address, zone_of): the type of addresses, and the function that returns the zone with an offset. */
static PyObject *values(PyObject *module, PyObject *const *arguments, Py_ssize_t count)
{
    struct types *types = PyModule_GetState(module);
    PyTypeObject *type;
    if (!is_count(count, 2) || take_type(&type, arguments[0], &PyTuple_Type) < 0)
        return NULL;
    Py_XDECREF(types->address);
    Py_XDECREF(types->zone_of);
    types->address = Py_NewRef(arguments[0]);
    types->zone_of = Py_NewRef(arguments[1]);
    Py_RETURN_NONE;
}

static void free_module(void *module)
{
    struct types *types = PyModule_GetState(module);
    PyObject **const objects = (PyObject **)types;
    size_t k;
    for (k = 0; types && k < sizeof *types / sizeof *objects; k++)
        Py_CLEAR(objects[k]);
}

static PyMethodDef functions[] = {
    { "version", version, METH_NOARGS, NULL },
    { "reason", reason, METH_O, NULL },
    { "json", json, METH_O, NULL },
    { "recipients", read_recipients, METH_O, NULL },
    { "findings", read_findings, METH_O, NULL },
    { "text_files", FAST(read_text_files), METH_FASTCALL, NULL },
    { "bounced_id", bounced_id, METH_O, NULL },
    { "header", FAST(header), METH_FASTCALL, NULL },
    { "raw_header", FAST(raw_header), METH_FASTCALL, NULL },
    { "ids", FAST(ids), METH_FASTCALL, NULL },
    { "html_text", FAST(html_text), METH_FASTCALL, NULL },
    { "readable_text", FAST(readable_text), METH_FASTCALL, NULL },
    { "date", date, METH_O, NULL },
    { "mails", FAST(mails), METH_FASTCALL, NULL },
    { "unquoted", unquoted, METH_O, NULL },
    { "safe_name", safe_name, METH_O, NULL },
    { "read", FAST(read_mail), METH_FASTCALL, NULL },
    { "parse", FAST(parse_mail), METH_FASTCALL, NULL },
    { "last_separator", last_separator, METH_O, NULL },
    { "read_mails", FAST(read_mails), METH_FASTCALL, NULL },
    { "values", FAST(values), METH_FASTCALL, NULL },
    { NULL, NULL, 0, NULL },
};

static PyModuleDef_Slot module_slots[] = {
    { Py_mod_exec, fill_module },
    { 0, NULL },
};

static PyModuleDef definition = {
    PyModuleDef_HEAD_INIT,
    .m_name = "rocktray._engine",
    .m_size = sizeof(struct types),
    .m_methods = functions,
    .m_slots = module_slots,
    .m_free = free_module,
};

PyMODINIT_FUNC PyInit__engine(void);

PyMODINIT_FUNC PyInit__engine(void)
{
    return PyModuleDef_Init(&definition);
}
