/* rocktray._engine.Node: a part of a mail or of a mail inside it, and what was decoded of it. */
#include "engine.h"

#include <stddef.h>
#include <structmember.h>

/* a part; NULL is what is not known yet, and otherwise None */
struct node {
    PyObject_HEAD
    PyObject *data, *reading, *path, *inside, *parent, *children, *headers, *size, *body;
    PyObject *type, *file_name, *disposition, *text;
    struct rocktray_part record;
    Py_ssize_t number, index;
    char is_encoded;
};

static void node_free(PyObject *self)
{
    struct node *node = (struct node *)self;
    PyTypeObject *type = Py_TYPE(self);
    PyObject *const objects[] = { node->data,     node->reading, node->path, node->inside, node->parent,
                                  node->children, node->headers, node->size, node->body,   node->type,
                                  node->file_name, node->disposition, node->text };
    size_t k;
    for (k = 0; k < sizeof objects / sizeof *objects; k++)
        Py_XDECREF(objects[k]);
    ((freefunc)PyType_GetSlot(type, Py_tp_free))(self);
    Py_DECREF(type);
}

#define OBJECT(name, flags) { #name, T_OBJECT, offsetof(struct node, name), flags, NULL }
#define OF_RECORD(name) { #name, T_ULONGLONG, offsetof(struct node, record.name), READONLY, NULL }

static PyMemberDef members[] = {
    OBJECT(data, READONLY),
    OBJECT(reading, READONLY),
    OBJECT(path, READONLY),
    OBJECT(inside, READONLY),
    OBJECT(parent, 0),
    OBJECT(children, 0),
    OBJECT(headers, 0),
    { "_size", T_OBJECT, offsetof(struct node, size), 0, NULL },
    { "_body", T_OBJECT, offsetof(struct node, body), 0, NULL },
    { "number", T_PYSSIZET, offsetof(struct node, number), READONLY, NULL },
    { "index", T_PYSSIZET, offsetof(struct node, index), READONLY, NULL },
    { "is_encoded", T_BOOL, offsetof(struct node, is_encoded), 0, NULL },
    OF_RECORD(start),
    OF_RECORD(end),
    OF_RECORD(body_start),
    OF_RECORD(body_end),
    OF_RECORD(encoding),
    OF_RECORD(flags),
    { NULL, 0, 0, 0, NULL },
};

/* something that is decoded when it is first asked for: where it is kept, and what finds it */
struct decoded {
    size_t offset;
    PyObject *(*find)(PyObject *reading, const struct rocktray_part *part);
};

static PyObject *node_decoded(PyObject *self, void *closure)
{
    const struct decoded *decoded = closure;
    struct node *node = (struct node *)self;
    PyObject **kept = (PyObject **)((char *)self + decoded->offset);
    return Py_XNewRef(*kept ? *kept : keep_first(kept, decoded->find(node->reading, &node->record)));
}

static struct decoded type = { offsetof(struct node, type), type_of_part };
static struct decoded file_name = { offsetof(struct node, file_name), file_name_of_part };
static struct decoded disposition = { offsetof(struct node, disposition), disposition_of_part };
static struct decoded text = { offsetof(struct node, text), text_of_part };

static PyGetSetDef getters[] = {
    { "type", node_decoded, NULL, NULL, &type },
    { "file_name", node_decoded, NULL, NULL, &file_name },
    { "disposition", node_decoded, NULL, NULL, &disposition },
    { "text", node_decoded, NULL, NULL, &text },
    { NULL, NULL, NULL, NULL, NULL },
};

/* The path of a part of the part with this path. */
static PyObject *path_under(PyObject *path, Py_ssize_t number)
{
    return PyUnicode_GetLength(path) > 0 ? PyUnicode_FromFormat("%U.%zd", path, number)
                                         : PyUnicode_FromFormat("%zd", number);
}

/* The path of a mail in the part with this path. */
static PyObject *path_of_mail(PyObject *path, const struct rocktray_part *mail)
{
    if (mail->flags & ROCKTRAY_IS_LEAF)
        return path_under(path, 1);
    return PyUnicode_GetLength(path) > 0 ? path_under(path, 0) : Py_NewRef(path);
}

/* Adds the next part to the one that contains it, and finds its path. Returns 0, or -1 for an error. */
static int put_under(struct node *node, struct node *above, PyObject *path)
{
    node->parent = PyLong_FromSsize_t(above->index);
    if (!node->parent || append(above->children, PyLong_FromSsize_t(node->index)) < 0)
        return -1;
    /* the parts of a mail in part 2, which is 2.0, are 2.1 and so on */
    node->path = path_under(above->number ? above->path : path, PyList_Size(above->children));
    return node->path ? 0 : -1;
}

/* A part without its path and the part that contains it. */
static struct node *node_of(PyTypeObject *type, PyObject *reading, PyObject *data, const struct rocktray_part *part)
{
    struct node *node = (struct node *)PyType_GenericAlloc(type, 0);
    if (!node)
        return NULL;
    node->data = Py_NewRef(data);
    node->reading = Py_NewRef(reading);
    node->record = *part;
    node->children = PyList_New(0);
    if (!node->children)
        Py_CLEAR(node);
    return node;
}

PyObject *nodes_of(PyObject *reading, PyObject *data, const struct rocktray_part *parts, size_t count,
                   PyTypeObject *type, PyObject *path, Py_ssize_t first)
{
    bool is_inside = PyUnicode_GetLength(path) > 0;
    PyObject *list = PyErr_Occurred() ? NULL : PyList_New((Py_ssize_t)count);
    size_t k;
    for (k = 0; list && k < count; k++) {
        struct node *node = node_of(type, reading, data, &parts[k]);
        if (!node || PyList_SetItem(list, (Py_ssize_t)k, (PyObject *)node) < 0) {
            Py_CLEAR(list);
            break;
        }
        node->number = (Py_ssize_t)k;
        node->index = first + (Py_ssize_t)k;
        node->inside = is_inside ? Py_NewRef(path) : NULL;
        if (k == 0 ? !(node->path = path_of_mail(path, parts))
                   : put_under(node, (struct node *)PyList_GetItem(list, (Py_ssize_t)parts[k].parent), path) < 0)
            Py_CLEAR(list);
    }
    return list;
}

static PyType_Slot slots[] = {
    { Py_tp_dealloc, node_free },
    { Py_tp_members, members },
    { Py_tp_getset, getters },
    { 0, NULL },
};

PyType_Spec node_spec = {
    .name = "rocktray._engine.Node",
    .basicsize = sizeof(struct node),
    .flags = Py_TPFLAGS_DEFAULT | Py_TPFLAGS_BASETYPE | Py_TPFLAGS_DISALLOW_INSTANTIATION,
    .slots = slots,
};
