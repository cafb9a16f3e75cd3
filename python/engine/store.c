/* rocktray._engine.Store: the memory of a mailbox that is used again. What malloc returns to the system, it clears page by
 * page before it can be used again, which takes longer than to copy a block of a file, and threads wait for one another. */
#define _GNU_SOURCE /* pread */
#include "engine.h"

#include <errno.h>
#include <stdlib.h>
#include <unistd.h>

/* the most blocks that are kept, and the most bytes of all, and the most spaces */
#define MOST_BLOCKS 16
#define MOST_BYTES (16 << 20)
#define MOST_SPACES 8

/* Blocks are bytes. One is read into again when nothing but the store refers to it, so that nobody sees it change. */
struct store {
    PyObject_HEAD
    PyObject *blocks[MOST_BLOCKS]; /* NULL for none */
    size_t bytes;                  /* their number in all blocks */
    struct space *spaces;          /* those that no batch uses */
    size_t space_count;
    bool is_closed;
};

/* Spaces. */

struct space *take_space(PyObject *self)
{
    struct store *store = (struct store *)self;
    struct space *space = store->spaces;
    if (space) {
        store->spaces = space->next;
        store->space_count--;
    } else {
        space = malloc(sizeof *space);
    }
    if (space)
        space->used = 0;
    return space;
}

void give_space(PyObject *self, struct space *space)
{
    struct store *store = (struct store *)self;
    if (!space)
        return;
    if (store->is_closed || store->space_count == MOST_SPACES) {
        free(space);
        return;
    }
    space->next = store->spaces;
    store->spaces = space;
    store->space_count++;
}

/* Blocks. */

/* Whether there is a block, and nothing but the store refers to it. */
static bool is_unused(PyObject *block)
{
    return block && Py_REFCNT(block) == 1;
}

/* A block of this size that is unused, a borrowed reference, or NULL. */
static PyObject *unused_block(const struct store *store, size_t size)
{
    size_t k;
    for (k = 0; k < MOST_BLOCKS; k++)
        if (is_unused(store->blocks[k]) && (size_t)PyBytes_Size(store->blocks[k]) == size)
            return store->blocks[k];
    return NULL;
}

/* Frees unused blocks until one of this size may be kept, if they suffice. */
static void free_unused(struct store *store, size_t size)
{
    size_t k;
    for (k = 0; k < MOST_BLOCKS && store->bytes + size > MOST_BYTES; k++)
        if (is_unused(store->blocks[k])) {
            store->bytes -= (size_t)PyBytes_Size(store->blocks[k]);
            Py_CLEAR(store->blocks[k]);
        }
}

/* Keeps a block of this size, if there is space for it. */
static void keep(struct store *store, PyObject *block, size_t size)
{
    size_t k;
    if (size == 0 || size > MOST_BYTES || store->is_closed)
        return;
    free_unused(store, size);
    for (k = 0; k < MOST_BLOCKS && store->bytes + size <= MOST_BYTES; k++)
        if (!store->blocks[k]) {
            store->blocks[k] = Py_NewRef(block);
            store->bytes += size;
            return;
        }
}

/* A block of this size, which is used again or new. A new reference, or NULL for an error. */
static PyObject *block_of(struct store *store, size_t size)
{
    PyObject *block = Py_XNewRef(unused_block(store, size));
    if (!block && (block = PyBytes_FromStringAndSize(NULL, (Py_ssize_t)size)))
        keep(store, block, size);
    return block;
}

/* bytes of a file that are read into a block */
struct loading {
    int file;
    off_t offset;
    uint8_t *to;
    size_t size, length; /* how many bytes are to be read, and how many were */
    size_t separator;    /* the last one in them */
};

/* Reads, and finds the last separator, without Python's lock. At the end of the file fewer bytes are read. Returns 0, or -1
 * for an error. */
static int read_block(struct loading *it)
{
    ssize_t more = 1;
    while (it->length < it->size && more != 0) {
        Py_BEGIN_ALLOW_THREADS
        more = pread(it->file, it->to + it->length, it->size - it->length, it->offset + (off_t)it->length);
        it->length += more > 0 ? (size_t)more : 0;
        if (more == 0 || it->length == it->size)
            it->separator = separator_in(it->to, it->length);
        Py_END_ALLOW_THREADS
        if (more < 0 && errno != EINTR) {
            PyErr_SetFromErrno(PyExc_OSError);
            return -1;
        }
        if (more < 0 && PyErr_CheckSignals() < 0)
            return -1;
    }
    return 0;
}

/* read(file, size, offset): the bytes at an offset of a file, and where their last separator begins, or 0. */
static PyObject *store_read(PyObject *self, PyObject *const *arguments, Py_ssize_t count)
{
    struct loading it = { .length = 0 };
    size_t file, offset;
    PyObject *block, *shorter = NULL;
    if (!is_count(count, 3) || take_size(&file, arguments[0]) < 0 || take_size(&it.size, arguments[1]) < 0 ||
        take_size(&offset, arguments[2]) < 0 || !(block = block_of((struct store *)self, it.size)))
        return NULL;
    it.file = (int)file;
    it.offset = (off_t)offset;
    it.to = (uint8_t *)PyBytes_AsString(block);
    if (read_block(&it) == 0 && it.length == it.size)
        return Py_BuildValue("Nn", block, (Py_ssize_t)it.separator);
    if (!PyErr_Occurred())
        shorter = PyBytes_FromStringAndSize((const char *)it.to, (Py_ssize_t)it.length);
    Py_DECREF(block);
    return shorter ? Py_BuildValue("Nn", shorter, (Py_ssize_t)it.separator) : NULL;
}

/* Frees what is kept. */
static void empty(struct store *store)
{
    size_t k;
    for (k = 0; k < MOST_BLOCKS; k++)
        Py_CLEAR(store->blocks[k]);
    store->bytes = 0;
    while (store->space_count > 0)
        free(take_space((PyObject *)store));
}

/* close(): frees what is kept, and keeps nothing from now on. */
static PyObject *store_close(PyObject *self, PyObject *unused)
{
    struct store *store = (struct store *)self;
    (void)unused;
    store->is_closed = true;
    empty(store);
    Py_RETURN_NONE;
}

static void store_free(PyObject *self)
{
    PyTypeObject *type = Py_TYPE(self);
    empty((struct store *)self);
    ((freefunc)PyType_GetSlot(type, Py_tp_free))(self);
    Py_DECREF(type);
}

static PyMethodDef methods[] = {
    { "read", FAST(store_read), METH_FASTCALL, NULL },
    { "close", store_close, METH_NOARGS, NULL },
    { NULL, NULL, 0, NULL },
};

static PyType_Slot slots[] = {
    { Py_tp_dealloc, store_free },
    { Py_tp_methods, methods },
    { 0, NULL },
};

PyType_Spec store_spec = {
    .name = "rocktray._engine.Store",
    .basicsize = sizeof(struct store),
    .flags = Py_TPFLAGS_DEFAULT,
    .slots = slots,
};
