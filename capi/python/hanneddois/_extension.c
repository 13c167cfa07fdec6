/*
 * The module hanneddois._extension: searches of the library hanneddois, by CPython's limited API, so that one file serves 3.9 and later.
 *
 * A Matcher is made of patterns and searches haystacks; the class Regex in __init__.py adds what needs no speed. A handle of the library
 * may do one search at a time, and searches of long haystacks give up the interpreter's lock. So a Matcher keeps a stock of handles: a
 * search takes one and gives it back. One that takes the last handle clones it before it gives up the lock, so that there is always one
 * for the next search. Whatever else a Matcher has doesn't change after it is made, or is changed only by whoever holds the lock.
 */
#ifndef Py_LIMITED_API
#define Py_LIMITED_API 0x03090000
#endif
#include <Python.h>
#include <structmember.h>

#include <stdlib.h>
#include <string.h>

#include "hanneddois.h"

/*
 * What not every header declares for this limited API. The first two belong to the stable ABI since 3.10. CPython 3.9 has them with the same
 * meaning, and doesn't change any more. PyObject_AsReadBuffer belongs to the stable ABI of every version, but 3.13 doesn't declare it.
 */
#ifndef METH_FASTCALL
#define METH_FASTCALL 0x0080
#endif
#if Py_LIMITED_API < 0x030a0000
PyAPI_FUNC(const char *) PyUnicode_AsUTF8AndSize(PyObject *, Py_ssize_t *);
#endif
PyAPI_FUNC(int) PyObject_AsReadBuffer(PyObject *, const void **, Py_ssize_t *);

/* Searches of more bytes than this give up the interpreter's lock. Shorter ones take less time than that would. */
#define FEW_BYTES 4096
/* An iterator searches ahead by as many matches as it has found so far, and at most by this many. */
#define MOST_ROWS 512
/* A match has room for the offsets of so many groups, and allocates room for more. */
#define FEW_GROUPS 4
/* How many matches that were freed are kept, to be made anew. */
#define MOST_FREE 64
/* So many short strs are kept: 2 to the power of this. With the table they take some 300 KB. */
#define KNOWN_BITS 12
/* The last tuples of groups are kept if their matches have at most so many characters. */
#define MOST_KEPT 1024

static PyTypeObject *matcher_type, *match_type, *iterator_type;
/* Of the module _common. */
static PyObject *error_type, *count_characters;

/* Also for None and NotImplemented: the macros that return these count no reference in the headers of 3.12 and later, where they are
   immortal, but an older interpreter needs it. */
static PyObject *new_reference(PyObject *object)
{
    Py_INCREF(object);
    return object;
}

/* ---- errors */

static PyObject *make_error(const hanneddois_error *error)
{
    uint8_t text[512];
    size_t length = hanneddois_error_text(error, text, sizeof text);
    if (length > sizeof text)
        length = sizeof text;
    PyObject *message = PyUnicode_FromStringAndSize((const char *)text, (Py_ssize_t)length);
    if (!message)
        return NULL;
    return PyObject_CallFunction(error_type, "NIInnnn", message, (unsigned)error->status, (unsigned)error->cause, (Py_ssize_t)error->pattern,
                                 (Py_ssize_t)error->start, (Py_ssize_t)error->end, (Py_ssize_t)error->limit);
}

static void raise_error(const hanneddois_error *error)
{
    PyObject *raised = make_error(error);
    if (raised)
        PyErr_SetObject(error_type, raised);
    Py_XDECREF(raised);
}

/* Raises the error of a pattern, whose offsets count characters if it is a str. */
static void raise_pattern_error(const hanneddois_error *error, PyObject *patterns)
{
    PyObject *raised = make_error(error);
    PyObject *done = raised ? PyObject_CallFunctionObjArgs(count_characters, raised, patterns, NULL) : NULL;
    if (done)
        PyErr_SetObject(error_type, raised);
    Py_XDECREF(done);
    Py_XDECREF(raised);
}

static void raise_bad_argument(void)
{
    hanneddois_error error = {HANNEDDOIS_BAD_ARGUMENT, 0, 0, 0, 0, 0};
    raise_error(&error);
}

/* Raises a TypeError with a message and the name of an object's type. */
static void raise_wrong_type(const char *message, PyObject *object)
{
    PyObject *name = PyObject_GetAttrString((PyObject *)Py_TYPE(object), "__name__");
    if (name)
        PyErr_Format(PyExc_TypeError, "%s, got %R", message, name);
    Py_XDECREF(name);
}

static int is_failure(hanneddois_status status)
{
    return status != HANNEDDOIS_OK && status != HANNEDDOIS_NONE;
}

/* ---- haystacks */

/* Bytes that don't move as long as the object and the view are held. */
typedef struct {
    PyObject *object;
    /* A memoryview of the object, or NULL if that is of bytes or str. */
    PyObject *view;
    const uint8_t *bytes;
    size_t length;
    int is_str;
    /* Whether offsets count the characters of a str. They count bytes otherwise, also in a str that is ASCII. */
    int has_characters;
    /* Whether an empty match inside a character doesn't count. */
    int is_utf8;
    /* Whether a search may give up the interpreter's lock: if no Python code can write to the bytes, and there are enough of them. */
    int may_unlock;
} Haystack;

static inline void close_haystack(Haystack *haystack)
{
    Py_CLEAR(haystack->object);
    Py_CLEAR(haystack->view);
}

/* Whether a str with this UTF-8 is ASCII. One that is has its bytes in itself, right after its header. One that isn't has a longer header,
   and a pointer to its UTF-8 there. */
static inline int is_ascii(PyObject *object, const char *bytes, Py_ssize_t length)
{
    const size_t least_header = 56;
    return (size_t)((uintptr_t)bytes - (uintptr_t)object) < least_header || PyUnicode_GetLength(object) == length;
}

static inline int open_str(Haystack *haystack)
{
    Py_ssize_t length;
    const char *bytes = PyUnicode_AsUTF8AndSize(haystack->object, &length);
    if (!bytes)
        return -1;
    haystack->bytes = (const uint8_t *)bytes;
    haystack->length = (size_t)length;
    haystack->is_str = 1;
    haystack->is_utf8 = haystack->has_characters = !is_ascii(haystack->object, bytes, length);
    return 0;
}

static inline int open_bytes(Haystack *haystack)
{
    char *bytes;
    Py_ssize_t length;
    if (PyBytes_AsStringAndSize(haystack->object, &bytes, &length) < 0)
        return -1;
    haystack->bytes = (const uint8_t *)bytes;
    haystack->length = (size_t)length;
    return 0;
}

static int is_read_only(PyObject *view)
{
    PyObject *answer = PyObject_GetAttrString(view, "readonly");
    int result = answer ? PyObject_IsTrue(answer) : -1;
    Py_XDECREF(answer);
    return result;
}

/* Finds the bytes of a view. PyObject_AsReadBuffer is deprecated since it doesn't hold the buffer, but here the view does. */
static int find_bytes(PyObject *view, const void **bytes, Py_ssize_t *length)
{
#pragma GCC diagnostic push
#pragma GCC diagnostic ignored "-Wdeprecated-declarations"
    return PyObject_AsReadBuffer(view, bytes, length);
#pragma GCC diagnostic pop
}

static __attribute__((noinline)) int open_buffer(Haystack *haystack)
{
    const void *bytes;
    Py_ssize_t length;
    haystack->view = PyMemoryView_FromObject(haystack->object);
    if (!haystack->view) {
        if (PyErr_ExceptionMatches(PyExc_TypeError))
            raise_wrong_type("expected a str or a bytes-like object", haystack->object);
        return -1;
    }
    if (find_bytes(haystack->view, &bytes, &length) < 0)
        return -1;
    haystack->bytes = bytes ? bytes : (const uint8_t *)"";
    haystack->length = (size_t)length;
    if (haystack->length > FEW_BYTES)
        haystack->may_unlock = is_read_only(haystack->view);
    return haystack->may_unlock < 0 ? -1 : 0;
}

/* The exact types come first: for others the limited API needs a call. */
static inline int open_by_kind(Haystack *haystack)
{
    PyObject *object = haystack->object;
    if (PyBytes_CheckExact(object))
        return open_bytes(haystack);
    if (PyUnicode_CheckExact(object) || PyUnicode_Check(object))
        return open_str(haystack);
    return PyBytes_Check(object) ? open_bytes(haystack) : open_buffer(haystack);
}

/* Opens what a caller searches. Must be closed, unless this fails. */
static inline int open_haystack(Haystack *haystack, PyObject *object)
{
    memset(haystack, 0, sizeof *haystack);
    haystack->object = new_reference(object);
    if (open_by_kind(haystack) < 0) {
        close_haystack(haystack);
        return -1;
    }
    if (!haystack->view)
        haystack->may_unlock = haystack->length > FEW_BYTES;
    return 0;
}

static int is_inside_character(const Haystack *haystack, size_t offset)
{
    return offset < haystack->length && (haystack->bytes[offset] & 0xC0) == 0x80;
}

/* An offset by bytes, and by characters. */
typedef struct {
    size_t byte;
    size_t character;
} Position;

/* How many of these 8 bytes are in a character but not its first. Only of such a byte the top bit is set and the next one isn't. */
static inline size_t count_inner(uint64_t word)
{
    const uint64_t ones = 0x0101010101010101u;
    return (size_t)((((word >> 7) & ~(word >> 6) & ones) * ones) >> 56);
}

static inline uint64_t word_at(const uint8_t *bytes)
{
    uint64_t word;
    memcpy(&word, bytes, sizeof word);
    return word;
}

typedef int8_t Block __attribute__((vector_size(16)));
/* The sums of so many blocks of zeros and ones fit into the bytes of half a block. */
#define MOST_BLOCKS 127

/* How many bytes of these blocks are in a character but not its first. Only such a byte is below -64 as a signed one. */
static inline size_t count_inner_of_blocks(const uint8_t *bytes, size_t blocks)
{
    const uint64_t even = 0x00ff00ff00ff00ffu;
    Block block, sums = {0};
    uint64_t halves[2];
    for (size_t i = 0; i < blocks; i++) {
        memcpy(&block, bytes + i * sizeof block, sizeof block);
        sums -= block < -64;
    }
    memcpy(halves, &sums, sizeof halves);
    uint64_t word = halves[0] + halves[1];
    return (size_t)((((word & even) + (word >> 8 & even)) * 0x0001000100010001u) >> 48);
}

/* How many characters start between two offsets. The last bytes are read as the top ones of a word, as machines with a library store them. */
static inline size_t count_between(const Haystack *haystack, size_t start, size_t end)
{
    const uint8_t *bytes = haystack->bytes;
    size_t count = end - start;
    while (end - start >= sizeof(Block)) {
        size_t blocks = (end - start) / sizeof(Block);
        blocks = blocks < MOST_BLOCKS ? blocks : MOST_BLOCKS;
        count -= count_inner_of_blocks(bytes + start, blocks);
        start += blocks * sizeof(Block);
    }
    if (end - start >= 8) {
        count -= count_inner(word_at(bytes + start));
        start += 8;
    }
    if (start < end && end >= 8)
        return count - count_inner(word_at(bytes + end - 8) >> 8 * (8 - (end - start)));
    for (; start < end; start++)
        count -= is_inside_character(haystack, start);
    return count;
}

/* The top bits of the bytes between two offsets, which are at most 16 bytes apart. A word ends where the last byte does, so at least 8 bytes
   precede it. */
static inline uint64_t top_bits_between(const Haystack *haystack, size_t start, size_t end)
{
    const uint8_t *bytes = haystack->bytes;
    size_t count = end - start;
    uint64_t last = word_at(bytes + end - 8);
    if (count < 8)
        last = count ? last >> 8 * (8 - count) : 0;
    else
        last |= word_at(bytes + start);
    return last & 0x8080808080808080u;
}

/* Whether the bytes between two offsets are few, and ASCII. */
static inline int is_short_ascii(const Haystack *haystack, size_t start, size_t end)
{
    return end >= 8 && end - start <= 16 && top_bits_between(haystack, start, end) == 0;
}

/* Moves to an offset at or after the position, and returns its number of characters. */
static inline size_t move_to(Position *position, const Haystack *haystack, size_t byte)
{
    if (!haystack->has_characters)
        return byte;
    position->character += count_between(haystack, position->byte, byte);
    position->byte = byte;
    return position->character;
}

/* Moves to a number of characters, which the haystack has. */
static void move_to_character(Position *position, const Haystack *haystack, size_t character)
{
    while (position->character > character)
        position->character -= !is_inside_character(haystack, --position->byte);
    while (position->character < character)
        position->character += !is_inside_character(haystack, ++position->byte);
}

/* ---- matchers */

/* Handles that no search uses, in an array with room for all that were made. */
typedef struct {
    hanneddois_regex *idle;
    size_t idle_count;
    size_t made;
    /* The flags with which they are compiled. */
    uint32_t flags;
} Stock;

/* How a regex that matches at one offset alone is made of the patterns: by what is before them. */
enum { AT_START, AFTER_CHARACTER, AFTER_BYTE, ANCHORS };

typedef struct {
    PyObject_HEAD
    /* The patterns as they were given: a tuple of str and bytes. */
    PyObject *given;
    /* The patterns as the library takes them: one after the other, and their lengths. */
    uint8_t *patterns;
    size_t patterns_length;
    size_t *lengths;
    Py_ssize_t count;
    hanneddois_options options;
    /* Whether a pattern has an unbounded repetition whose body can match the empty string. */
    int has_empty_loops;
    /* Whether one call of hanneddois_find_at searches bytes: there are no such repetitions, and haystacks needn't be UTF-8. */
    int has_plain_searches;
    /* The handles with which to search any bytes. */
    Stock stock;
    /* Handles with the flag HANNEDDOIS_UTF8. They read each haystack twice, so only what needs them uses them. */
    Stock utf8_stock;
    /* Whether the patterns were found to be of that kind: a search of a str requires it. */
    int fits_str;
    /* For each pattern a tuple of the names of its groups and a dict of their numbers, or NULL until somebody asks. */
    PyObject *names;
    PyObject *indexes;
    /* For each pattern how many groups it has, with group 0, and the largest of these numbers. NULL as long as the names are. */
    Py_ssize_t *group_counts;
    size_t most_groups;
    /* How many matches somebody asked for their groups. */
    size_t asked;
    /* Regexes that match at one offset, and perhaps up to the end, or NULL until somebody asks. */
    PyObject *anchored[ANCHORS][2];
    /* The last str in which a search was given an offset, and where this is: the next offset is likely to be near. */
    PyObject *last_str;
    Position last_position;
} Matcher;

/* Compiles the patterns, and gives up the interpreter's lock meanwhile. */
static hanneddois_status compile_patterns(const Matcher *self, uint32_t flags, hanneddois_regex *handle, hanneddois_error *error)
{
    hanneddois_options options = self->options;
    hanneddois_status status;
    options.flags = flags;
    memset(handle, 0, sizeof *handle);
    Py_BEGIN_ALLOW_THREADS
    status = hanneddois_new(handle, self->patterns, self->patterns_length, self->lengths, (size_t)self->count, &options, error);
    Py_END_ALLOW_THREADS
    return status;
}

/* Compiles the patterns. That a loop may be empty isn't an error: the searches for groups find the end that is preferred. */
static __attribute__((noinline)) int compile_handle(Matcher *self, const Stock *stock, hanneddois_regex *handle)
{
    hanneddois_error error;
    uint32_t flags = stock->flags & ~(uint32_t)HANNEDDOIS_EMPTY_LOOPS;
    hanneddois_status status = compile_patterns(self, flags, handle, &error);
    if (status == HANNEDDOIS_EMPTY_LOOP) {
        self->has_empty_loops = 1;
        status = compile_patterns(self, flags | HANNEDDOIS_EMPTY_LOOPS, handle, &error);
    }
    if (status == HANNEDDOIS_OK)
        return 0;
    raise_pattern_error(&error, self->given);
    return -1;
}

static void give_back(Stock *stock, hanneddois_regex handle)
{
    stock->idle[stock->idle_count++] = handle;
}

/* Makes room for a handle that was made, so that giving it back can't fail. If there is no memory for that, frees the handle. */
static int make_room(Stock *stock, hanneddois_regex *handle)
{
    hanneddois_regex *idle = realloc(stock->idle, (stock->made + 1) * sizeof *idle);
    if (!idle) {
        hanneddois_free(handle);
        PyErr_NoMemory();
        return -1;
    }
    stock->idle = idle;
    stock->made++;
    return 0;
}

/* Takes an idle handle. There is one, unless the stock is new: then it compiles the patterns. */
static inline int take_handle(Matcher *self, Stock *stock, hanneddois_regex *handle)
{
    if (stock->idle_count > 0) {
        *handle = stock->idle[--stock->idle_count];
        return 0;
    }
    return compile_handle(self, stock, handle) < 0 ? -1 : make_room(stock, handle);
}

/* Before a search gives up the interpreter's lock: leaves an idle handle for another thread. */
static __attribute__((noinline)) int leave_handle(Stock *stock, hanneddois_regex *taken)
{
    hanneddois_regex handle = HANNEDDOIS_EMPTY;
    hanneddois_error error = {HANNEDDOIS_OK, 0, 0, 0, 0, 0};
    if (stock->idle_count > 0)
        return 0;
    error.status = hanneddois_clone(taken, &handle);
    if (error.status != HANNEDDOIS_OK) {
        raise_error(&error);
        return -1;
    }
    if (make_room(stock, &handle) < 0)
        return -1;
    give_back(stock, handle);
    return 0;
}

/* The name of a group as a str, or None if it has none. */
static PyObject *name_of(hanneddois_regex *handle, size_t pattern, size_t group)
{
    uint8_t few[64], *name = few;
    size_t length = hanneddois_group_name(handle, pattern, group, few, sizeof few);
    if (length == 0)
        return new_reference(Py_None);
    if (length > sizeof few) {
        name = malloc(length);
        if (!name)
            return PyErr_NoMemory();
        hanneddois_group_name(handle, pattern, group, name, length);
    }
    PyObject *made = PyUnicode_FromStringAndSize((const char *)name, (Py_ssize_t)length);
    if (name != few)
        free(name);
    return made;
}

/* The names of the groups of a pattern, with None for a group without a name, as for the whole match. */
static PyObject *names_of(hanneddois_regex *handle, size_t pattern)
{
    Py_ssize_t count = (Py_ssize_t)hanneddois_group_count(handle, pattern);
    PyObject *names = PyTuple_New(count);
    for (Py_ssize_t i = 0; names && i < count; i++) {
        PyObject *name = name_of(handle, pattern, (size_t)i);
        if (!name || PyTuple_SetItem(names, i, name) < 0)
            Py_CLEAR(names);
    }
    return names;
}

/* The numbers of groups by their names. */
static PyObject *index_names(PyObject *names)
{
    PyObject *index = PyDict_New();
    for (Py_ssize_t i = 1; index && i < PyTuple_Size(names); i++) {
        PyObject *name = PyTuple_GetItem(names, i), *number;
        if (name == Py_None)
            continue;
        number = PyLong_FromSsize_t(i);
        if (!number || PyDict_SetItem(index, name, number) < 0)
            Py_CLEAR(index);
        Py_XDECREF(number);
    }
    return index;
}

static int list_names(Matcher *self, hanneddois_regex *handle, PyObject *all, PyObject *indexes, Py_ssize_t *counts)
{
    for (Py_ssize_t i = 0; i < self->count; i++) {
        PyObject *names = names_of(handle, (size_t)i);
        if (!names || PyTuple_SetItem(all, i, names) < 0)
            return -1;
        PyObject *index = index_names(names);
        if (!index || PyTuple_SetItem(indexes, i, index) < 0)
            return -1;
        counts[i] = PyTuple_Size(names);
        if ((size_t)counts[i] > self->most_groups)
            self->most_groups = (size_t)counts[i];
    }
    return 0;
}

static __attribute__((noinline)) int find_new_names(Matcher *self)
{
    hanneddois_regex handle;
    PyObject *all = PyTuple_New(self->count), *indexes = PyTuple_New(self->count);
    Py_ssize_t *counts = calloc((size_t)self->count + 1, sizeof *counts);
    if (!counts)
        PyErr_NoMemory();
    int status = all && indexes && counts ? take_handle(self, &self->stock, &handle) : -1;
    if (status == 0) {
        status = list_names(self, &handle, all, indexes, counts);
        give_back(&self->stock, handle);
    }
    if (status == 0 && !self->names) {
        self->names = all;
        self->indexes = indexes;
        self->group_counts = counts;
        return 0;
    }
    Py_XDECREF(all);
    Py_XDECREF(indexes);
    free(counts);
    return status;
}

/* Finds the names of the groups of all patterns, if that wasn't done yet. */
static inline int find_names(Matcher *self)
{
    return self->names ? 0 : find_new_names(self);
}

/* How many groups a pattern has, with group 0. The names have to be known. */
static inline Py_ssize_t group_count(const Matcher *self, Py_ssize_t pattern)
{
    return self->group_counts[pattern];
}

static void free_stock(Stock *stock)
{
    while (stock->idle_count > 0)
        hanneddois_free(&stock->idle[--stock->idle_count]);
    free(stock->idle);
}

static int has_byte(const Matcher *self, char byte)
{
    return memchr(self->patterns, byte, self->patterns_length) != NULL;
}

/* Before a search of a str: raises an error if a match could split a character. The library decides that, unless the patterns can't turn
   Unicode off: then no match does. */
static int check_fits_str(Matcher *self)
{
    hanneddois_regex handle;
    if ((self->options.flags & HANNEDDOIS_NO_UNICODE) || (has_byte(self, '?') && has_byte(self, '-') && has_byte(self, 'u'))) {
        if (take_handle(self, &self->utf8_stock, &handle) < 0)
            return -1;
        give_back(&self->utf8_stock, handle);
    }
    self->fits_str = 1;
    return 0;
}

static int copy_patterns(Matcher *self, PyObject *patterns)
{
    self->count = PyTuple_Size(patterns);
    self->lengths = calloc((size_t)self->count + 1, sizeof *self->lengths);
    if (!self->lengths)
        return -1;
    for (Py_ssize_t i = 0; i < self->count; i++) {
        self->lengths[i] = (size_t)PyBytes_Size(PyTuple_GetItem(patterns, i));
        self->patterns_length += self->lengths[i];
    }
    uint8_t *next = self->patterns = malloc(self->patterns_length + 1);
    if (!next)
        return -1;
    for (Py_ssize_t i = 0; i < self->count; i++) {
        memcpy(next, PyBytes_AsString(PyTuple_GetItem(patterns, i)), self->lengths[i]);
        next += self->lengths[i];
    }
    return 0;
}

static int are_bytes(PyObject *patterns)
{
    for (Py_ssize_t i = 0; i < PyTuple_Size(patterns); i++) {
        if (!PyBytes_Check(PyTuple_GetItem(patterns, i))) {
            PyErr_SetString(PyExc_TypeError, "the patterns of a Matcher are a tuple of bytes");
            return 0;
        }
    }
    return 1;
}

static PyObject *matcher_new(PyTypeObject *type, PyObject *args, PyObject *Py_UNUSED(kwargs))
{
    PyObject *given, *patterns;
    hanneddois_options options;
    unsigned long long capacity, size_limit;
    hanneddois_regex handle;
    if (!PyArg_ParseTuple(args, "O!O!IKKI:Matcher", &PyTuple_Type, &given, &PyTuple_Type, &patterns, &options.flags, &capacity, &size_limit,
                          &options.nest_limit) ||
        !are_bytes(patterns))
        return NULL;
    options.capacity = (size_t)capacity;
    options.size_limit = (size_t)size_limit;
    allocfunc allocate = (allocfunc)PyType_GetSlot(type, Py_tp_alloc);
    Matcher *self = (Matcher *)allocate(type, 0);
    if (!self)
        return NULL;
    self->given = new_reference(given);
    self->options = options;
    self->stock.flags = options.flags & ~(uint32_t)HANNEDDOIS_UTF8;
    self->utf8_stock.flags = options.flags | HANNEDDOIS_UTF8;
    /* A pattern that needs more than the default isn't an error, but one that needs more than its caller allows. */
    if (options.capacity == 0) {
        self->stock.flags |= HANNEDDOIS_RAISE_CAPACITY;
        self->utf8_stock.flags |= HANNEDDOIS_RAISE_CAPACITY;
    }
    Stock *first = options.flags & HANNEDDOIS_UTF8 ? &self->utf8_stock : &self->stock;
    if (copy_patterns(self, patterns) < 0) {
        PyErr_NoMemory();
    } else if (take_handle(self, first, &handle) == 0) {
        give_back(first, handle);
        self->has_plain_searches = !self->has_empty_loops && !(options.flags & HANNEDDOIS_UTF8);
        return (PyObject *)self;
    }
    Py_DECREF(self);
    return NULL;
}

static void matcher_dealloc(PyObject *object)
{
    PyTypeObject *type = Py_TYPE(object);
    Matcher *self = (Matcher *)object;
    free_stock(&self->stock);
    free_stock(&self->utf8_stock);
    free(self->patterns);
    free(self->lengths);
    free(self->group_counts);
    Py_XDECREF(self->given);
    Py_XDECREF(self->names);
    Py_XDECREF(self->indexes);
    Py_XDECREF(self->last_str);
    for (size_t i = 0; i < ANCHORS; i++) {
        Py_XDECREF(self->anchored[i][0]);
        Py_XDECREF(self->anchored[i][1]);
    }
    freefunc release = (freefunc)PyType_GetSlot(type, Py_tp_free);
    release(object);
    Py_DECREF(type);
}

/* ---- searches */

/* Finds the parameters of a search, the haystack and perhaps offsets, among positional arguments and keywords. The names that they have in
   re will do too. */
static __attribute__((noinline)) int parse_keywords(const char *name, PyObject *const *args, Py_ssize_t nargs, PyObject *keywords, Py_ssize_t most, PyObject **parsed)
{
    static const char *const names[] = {"haystack", "start", "end"}, *const other_names[] = {"string", "pos", "endpos"};
    Py_ssize_t count = keywords ? PyTuple_Size(keywords) : 0;
    if (nargs > most) {
        PyErr_Format(PyExc_TypeError, "%s() takes at most %zd arguments (%zd given)", name, most, nargs);
        return -1;
    }
    for (Py_ssize_t i = 0; i < nargs; i++)
        parsed[i] = args[i];
    for (Py_ssize_t i = 0; i < count; i++) {
        PyObject *keyword = PyTuple_GetItem(keywords, i);
        Py_ssize_t at = 0;
        while (at < most && PyUnicode_CompareWithASCIIString(keyword, names[at]) != 0 &&
               PyUnicode_CompareWithASCIIString(keyword, other_names[at]) != 0)
            at++;
        if (at == most || parsed[at]) {
            PyErr_Format(PyExc_TypeError, "%s() got %s argument %R", name, at == most ? "an unexpected keyword" : "multiple values for", keyword);
            return -1;
        }
        parsed[at] = args[nargs + i];
    }
    if (parsed[0])
        return 0;
    PyErr_Format(PyExc_TypeError, "%s() is missing the argument 'haystack'", name);
    return -1;
}

static inline int parse_arguments(const char *name, PyObject *const *args, Py_ssize_t nargs, PyObject *keywords, Py_ssize_t most, PyObject **parsed)
{
    if (nargs != 1 || keywords)
        return parse_keywords(name, args, nargs, keywords, most, parsed);
    parsed[0] = args[0];
    return 0;
}

/* Opens the haystack of a search by these patterns. */
static inline int open_for(Matcher *self, Haystack *haystack, PyObject *object)
{
    if (open_haystack(haystack, object) < 0)
        return -1;
    if (haystack->is_str && !self->fits_str && check_fits_str(self) < 0) {
        close_haystack(haystack);
        return -1;
    }
    return 0;
}

/* Opens the haystack of a search that takes nothing else. */
static int parse_haystack(Matcher *self, const char *name, PyObject *const *args, Py_ssize_t nargs, PyObject *keywords, Haystack *haystack)
{
    PyObject *parsed[1] = {NULL};
    if (parse_arguments(name, args, nargs, keywords, 1, parsed) < 0)
        return -1;
    return open_for(self, haystack, parsed[0]);
}

/* Where a match is, in bytes. */
typedef struct {
    Py_ssize_t start;
    /* How many bytes before the start the search for its groups begins. */
    Py_ssize_t back;
    /* How many bytes of the haystack were searched, and from which offset on, as the caller counts. */
    Py_ssize_t length;
    Py_ssize_t pos;
    Py_ssize_t endpos;
} Place;

/* The part of a haystack in which to search. */
typedef struct {
    Position start;
    Place place;
    /* Whether its end is before its start. */
    int is_empty;
} Range;

static int parse_offset(PyObject *given, Py_ssize_t *offset)
{
    if (given)
        *offset = PyNumber_AsSsize_t(given, NULL);
    return *offset == -1 && PyErr_Occurred() ? -1 : 0;
}

static Py_ssize_t clamp(Py_ssize_t offset, Py_ssize_t length)
{
    return offset < 0 ? 0 : offset > length ? length : offset;
}

/* The position of an offset that a caller gives. It is sought from the last one in the same str, or from the start of the haystack, which
   is nearer. */
static Position position_of(Matcher *self, const Haystack *haystack, Py_ssize_t offset)
{
    Position position = {0, 0};
    if (!haystack->has_characters)
        return (Position){(size_t)offset, (size_t)offset};
    if (self->last_str == haystack->object && self->last_position.character / 2 <= (size_t)offset)
        position = self->last_position;
    move_to_character(&position, haystack, (size_t)offset);
    if (self->last_str != haystack->object) {
        Py_XDECREF(self->last_str);
        self->last_str = new_reference(haystack->object);
    }
    self->last_position = position;
    return position;
}

/* Finds the part that a caller gives by its start and end, and ends the haystack there. Other offsets than those of the haystack stand for
   the nearest one, except that a start has to be one of them if the search is strict. */
static __attribute__((noinline)) int parse_offsets(Matcher *self, Haystack *haystack, PyObject *const *given, int is_strict, Range *range)
{
    Py_ssize_t length = haystack->has_characters ? PyUnicode_GetLength(haystack->object) : (Py_ssize_t)haystack->length;
    Py_ssize_t start = 0, end = length;
    if (parse_offset(given[0], &start) < 0 || parse_offset(given[1], &end) < 0)
        return -1;
    if (is_strict && (start < 0 || start > length)) {
        raise_bad_argument();
        return -1;
    }
    start = clamp(start, length);
    end = clamp(end, length);
    size_t last = end < length ? position_of(self, haystack, end).byte : haystack->length;
    range->start = start ? position_of(self, haystack, start) : (Position){0, 0};
    haystack->length = last;
    range->place = (Place){0, 0, (Py_ssize_t)last, start, end};
    range->is_empty = end < start;
    return 0;
}

static inline int parse_range(Matcher *self, Haystack *haystack, PyObject *const *given, int is_strict, Range *range)
{
    if (given[0] || given[1])
        return parse_offsets(self, haystack, given, is_strict, range);
    Py_ssize_t length = (Py_ssize_t)haystack->length;
    range->start = (Position){0, 0};
    range->place = (Place){0, 0, length, 0, haystack->has_characters ? PyUnicode_GetLength(haystack->object) : length};
    range->is_empty = 0;
    return 0;
}

/* What a search holds while it runs. */
typedef struct {
    Stock *stock;
    hanneddois_regex handle;
    /* NULL if the search keeps the interpreter's lock. */
    PyThreadState *unlocked;
} Search;

static inline int begin_search(Matcher *self, Stock *stock, const Haystack *haystack, Search *search)
{
    if (take_handle(self, stock, &search->handle) < 0)
        return -1;
    if (haystack->may_unlock && leave_handle(stock, &search->handle) < 0) {
        give_back(stock, search->handle);
        return -1;
    }
    search->stock = stock;
    search->unlocked = haystack->may_unlock ? PyEval_SaveThread() : NULL;
    return 0;
}

static inline void end_search(Search *search)
{
    if (search->unlocked)
        PyEval_RestoreThread(search->unlocked);
    give_back(search->stock, search->handle);
}

/* The handles with which to search a haystack once. */
static inline Stock *stock_for(Matcher *self, const Haystack *haystack)
{
    return self->options.flags & HANNEDDOIS_UTF8 && !haystack->is_str ? &self->utf8_stock : &self->stock;
}

/* Before several searches: raises an error if the haystack has to be UTF-8 and isn't. From then on empty matches inside characters are
   skipped, and handles are used that don't check the haystack at each search. */
static int check_utf8(Matcher *self, Haystack *haystack)
{
    Search search;
    hanneddois_error error;
    if (!(self->options.flags & HANNEDDOIS_UTF8) || haystack->is_utf8 || haystack->is_str)
        return 0;
    if (begin_search(self, &self->utf8_stock, haystack, &search) < 0)
        return -1;
    hanneddois_status status = hanneddois_is_match(&search.handle, haystack->bytes, haystack->length, &error);
    end_search(&search);
    if (is_failure(status)) {
        raise_error(&error);
        return -1;
    }
    haystack->is_utf8 = 1;
    return 0;
}

/* What one search looks for: from which offset on, and how many slots it fills. */
typedef struct {
    size_t from;
    size_t *slots;
    size_t width;
} Query;

/* The next match. If a loop of the patterns may be empty, only the search for groups returns the end that is preferred. */
static inline hanneddois_status find_once(const Matcher *self, Search *search, const Haystack *haystack, const Query *query, hanneddois_match *match,
                                          hanneddois_error *error)
{
    if (query->width == 0 && !self->has_empty_loops)
        return hanneddois_find_at(&search->handle, haystack->bytes, haystack->length, query->from, match, error);
    return hanneddois_captures(&search->handle, haystack->bytes, haystack->length, query->from, match, query->slots, query->width, error);
}

/* The next match that counts: in a str, an empty one inside a character doesn't. No other match starts there. */
static inline hanneddois_status find_from(const Matcher *self, Search *search, const Haystack *haystack, Query query, hanneddois_match *match,
                                          hanneddois_error *error)
{
    for (;;) {
        hanneddois_status status = find_once(self, search, haystack, &query, match, error);
        if (status != HANNEDDOIS_OK || match->start != match->end || !haystack->is_utf8 || !is_inside_character(haystack, match->start))
            return status;
        query.from = match->start + 1;
    }
}

/* ---- scans: all matches of a haystack, of which some are found ahead */

typedef struct {
    Matcher *matcher;
    Haystack haystack;
    /* Whether an empty match right at the end of the last one is listed, as re does. */
    int lists_all;
    /* Where to search on, and where the last match ended. */
    size_t from;
    size_t last_end;
    /* The matches that were found ahead, which of them is the next, and the slots of their groups, so many each. */
    hanneddois_match *rows;
    size_t room;
    size_t count;
    size_t next;
    size_t *slots;
    size_t slots_room;
    size_t width;
    /* What comes after these matches: perhaps more, or nothing, or an error. */
    hanneddois_status status;
    hanneddois_error error;
    int is_searching;
} Scan;

static void begin_scan(Scan *scan, Matcher *matcher, const Haystack *haystack, const Range *range, int lists_all)
{
    memset(scan, 0, sizeof *scan);
    scan->matcher = (Matcher *)new_reference((PyObject *)matcher);
    scan->haystack = *haystack;
    scan->lists_all = lists_all;
    scan->from = range->start.byte;
    scan->last_end = SIZE_MAX;
    scan->status = range->is_empty ? HANNEDDOIS_NONE : HANNEDDOIS_OK;
}

/* Lets go of everything. Then there are no further matches. */
static void end_scan(Scan *scan)
{
    free(scan->rows);
    free(scan->slots);
    scan->rows = NULL;
    scan->slots = NULL;
    scan->room = scan->slots_room = scan->count = scan->next = 0;
    scan->status = HANNEDDOIS_NONE;
    close_haystack(&scan->haystack);
    Py_CLEAR(scan->matcher);
}

/* Each match gets the slots of all groups that a pattern has. */
static int want_groups(Scan *scan)
{
    if (find_names(scan->matcher) < 0)
        return -1;
    scan->width = 2 * scan->matcher->most_groups;
    return 0;
}

/* Whether a match doesn't count: an empty one inside a character of a str, and, unless all are listed, one right at the end of the last. */
static inline int is_skipped(const Scan *scan, const hanneddois_match *row)
{
    return (row->end == scan->last_end && !scan->lists_all) || (scan->haystack.is_utf8 && is_inside_character(&scan->haystack, row->start));
}

/* Moves a match that was found ahead, with its slots, to an earlier row. */
static __attribute__((noinline)) void move_row(Scan *scan, size_t to, size_t from)
{
    scan->rows[to] = scan->rows[from];
    if (scan->width)
        memcpy(scan->slots + to * scan->width, scan->slots + from * scan->width, scan->width * sizeof *scan->slots);
}

/* Drops the matches that don't count, and returns how many are left. Only empty ones don't. */
static size_t drop_skipped(Scan *scan, size_t found)
{
    size_t count = 0;
    for (size_t i = 0; i < found; i++) {
        const hanneddois_match *row = &scan->rows[i];
        if (row->start == row->end && is_skipped(scan, row))
            continue;
        scan->last_end = row->end;
        if (count < i)
            move_row(scan, count, i);
        count++;
    }
    return count;
}

/* Finds the next matches, as many as there is room for, and returns how many. The count of the scan stays 0 meanwhile, since other threads
   may read it. */
static size_t find_some(Scan *scan, Search *search)
{
    const Haystack *haystack = &scan->haystack;
    size_t found, *slots = scan->width ? scan->slots : (size_t *)scan->rows;
    scan->status = hanneddois_captures_next(&search->handle, haystack->bytes, haystack->length, &scan->from, scan->rows, scan->room, slots,
                                            scan->room * scan->width, scan->width, &found, &scan->error);
    if (!is_failure(scan->status))
        scan->status = found < scan->room ? HANNEDDOIS_NONE : HANNEDDOIS_OK;
    return drop_skipped(scan, found);
}

static int has_room(Scan *scan, size_t room)
{
    if (room > scan->room) {
        hanneddois_match *rows = realloc(scan->rows, room * sizeof *rows);
        if (!rows)
            return 0;
        scan->rows = rows;
        scan->room = room;
    }
    if (scan->room * scan->width > scan->slots_room) {
        size_t *slots = realloc(scan->slots, scan->room * scan->width * sizeof *slots);
        if (!slots)
            return 0;
        scan->slots = slots;
        scan->slots_room = scan->room * scan->width;
    }
    return 1;
}

static int search_ahead(Scan *scan)
{
    Search search;
    size_t room = scan->room ? 2 * scan->room : scan->haystack.length > FEW_BYTES ? 1 : 8;
    scan->count = scan->next = 0;
    if (!has_room(scan, room < MOST_ROWS ? room : MOST_ROWS)) {
        PyErr_NoMemory();
        return -1;
    }
    /* The next calls may give up the interpreter's lock, so other threads have to see this first. */
    scan->is_searching = 1;
    if ((scan->room == room && check_utf8(scan->matcher, &scan->haystack) < 0) ||
        begin_search(scan->matcher, &scan->matcher->stock, &scan->haystack, &search) < 0) {
        scan->is_searching = 0;
        return -1;
    }
    size_t count = find_some(scan, &search);
    end_search(&search);
    scan->count = count;
    scan->is_searching = 0;
    return 0;
}

/* Finds further matches, once all were returned. Returns whether there is one; if not, an error may be raised. */
static __attribute__((noinline)) int has_more(Scan *scan)
{
    while (scan->next == scan->count) {
        if (scan->status != HANNEDDOIS_OK) {
            if (is_failure(scan->status))
                raise_error(&scan->error);
            return 0;
        }
        if (search_ahead(scan) < 0)
            return 0;
    }
    return 1;
}

/* The next match, or NULL after the last one, and with an error raised. The slots of its groups are at `slots_of`. */
static inline const hanneddois_match *next_row(Scan *scan)
{
    return scan->next < scan->count || has_more(scan) ? &scan->rows[scan->next++] : NULL;
}

/* The slots of the match that was returned last, or NULL if groups weren't searched for. */
static inline const size_t *slots_of(const Scan *scan)
{
    return scan->width ? scan->slots + (scan->next - 1) * scan->width : NULL;
}

/* ---- matches */

typedef struct {
    PyObject_HEAD
    Py_ssize_t pattern;
    Py_ssize_t start;
    Py_ssize_t end;
    Place place;
    /* What was searched. In a match that was freed and is kept, the next one of these. */
    PyObject *haystack;
    PyObject *regex;
    /* The regex that finds the groups, if it is another one than the match is of, or NULL. */
    PyObject *finder;
    /* The bytes of the part between two offsets of the match are found from here on, as in `origin_of`. NULL if they aren't known. */
    const char *origin;
    /* Start and end of each group from 1 on, as the caller counts, and -1 for one that took no part. NULL until somebody asks for one. */
    Py_ssize_t *offsets;
    Py_ssize_t few[2 * FEW_GROUPS];
    /* Whether it refers to a haystack that is exactly bytes or a str, and to a regex, and to nothing else that is freed with it. */
    int is_simple;
} Match;

static Match *free_matches;
static size_t free_count;

/* Takes a match that was freed and is kept: there has to be one. It has no reference to it, and keeps its reference to its type. */
static inline Match *reuse_match(void)
{
    Match *match = free_matches;
    free_matches = (Match *)match->haystack;
    free_count--;
    return (Match *)new_reference((PyObject *)match);
}

/* Whether a haystack refers to no other object. Not tracking matches of these saves time. */
static inline int is_plain(PyObject *haystack)
{
    return PyBytes_CheckExact(haystack) || PyUnicode_CheckExact(haystack);
}

/* The bytes of a haystack that is of exactly that type, so that they never change, or the UTF-8 of a str that isn't ASCII; otherwise NULL. */
static inline const char *first_origin_of(const Haystack *haystack)
{
    return haystack->has_characters || PyBytes_CheckExact(haystack->object) ? (const char *)haystack->bytes : NULL;
}

/* From where on offsets count bytes in a match, or NULL: its characters are as far from there as they are from the start of the haystack,
   unless one has several bytes. */
static inline const char *origin_of(const Haystack *haystack, const hanneddois_match *row, size_t start, size_t end)
{
    const char *first = first_origin_of(haystack);
    return first && row->end - row->start == end - start ? first + (row->start - start) : NULL;
}

static inline void fill_match(Match *match, Matcher *regex, PyObject *haystack, const hanneddois_match *row, size_t start, size_t end,
                              const Place *place, const char *origin)
{
    match->pattern = (Py_ssize_t)row->pattern;
    match->start = (Py_ssize_t)start;
    match->end = (Py_ssize_t)end;
    match->place = *place;
    match->place.start = (Py_ssize_t)row->start;
    match->haystack = new_reference(haystack);
    match->regex = new_reference((PyObject *)regex);
    match->finder = NULL;
    match->origin = origin;
    match->offsets = NULL;
    match->is_simple = 1;
}

static inline Match *make_match(Matcher *regex, PyObject *haystack, const hanneddois_match *row, size_t start, size_t end, const Place *place,
                                const char *origin)
{
    Match *match = free_matches ? reuse_match() : PyObject_GC_New(Match, match_type);
    if (!match)
        return NULL;
    fill_match(match, regex, haystack, row, start, end, place, origin);
    if (!is_plain(haystack)) {
        match->is_simple = 0;
        PyObject_GC_Track(match);
    }
    return match;
}

/* A match of a haystack between two offsets, as the caller counts. */
static inline Match *match_of(Matcher *regex, const Haystack *haystack, const hanneddois_match *row, size_t start, size_t end, const Place *place)
{
    return make_match(regex, haystack->object, row, start, end, place, origin_of(haystack, row, start, end));
}

static PyObject *match_new(PyTypeObject *type, PyObject *Py_UNUSED(args), PyObject *Py_UNUSED(kwargs))
{
    PyErr_Format(PyExc_TypeError, "only a search makes a %R", (PyObject *)type);
    return NULL;
}

static int match_traverse(PyObject *self, visitproc visit, void *arg)
{
    Py_VISIT(Py_TYPE(self));
    Py_VISIT(((Match *)self)->haystack);
    Py_VISIT(((Match *)self)->regex);
    Py_VISIT(((Match *)self)->finder);
    return 0;
}

static inline int match_clear(PyObject *self)
{
    Match *match = (Match *)self;
    Py_CLEAR(match->haystack);
    Py_CLEAR(match->regex);
    Py_CLEAR(match->finder);
    if (match->offsets && match->offsets != match->few)
        free(match->offsets);
    match->offsets = NULL;
    return 0;
}

static inline void keep_free_match(Match *match)
{
    match->haystack = (PyObject *)free_matches;
    free_matches = match;
    free_count++;
}

/* Frees a match, or keeps it. */
static __attribute__((noinline)) void free_match(PyObject *self)
{
    PyTypeObject *type = Py_TYPE(self);
    PyObject *haystack = ((Match *)self)->haystack;
    if (!haystack || !is_plain(haystack))
        PyObject_GC_UnTrack(self);
    match_clear(self);
    if (free_count < MOST_FREE) {
        keep_free_match((Match *)self);
    } else {
        PyObject_GC_Del(self);
        Py_DECREF(type);
    }
}

/* Whether something else refers to an object too. */
static inline int is_shared(PyObject *object)
{
    return Py_REFCNT(object) > 1;
}

/* Most matches are kept, and none of what they refer to is freed with them. */
static void match_dealloc(PyObject *self)
{
    Match *match = (Match *)self;
    if (free_count == MOST_FREE || !match->is_simple || !is_shared(match->haystack) || !is_shared(match->regex)) {
        free_match(self);
        return;
    }
    Py_DECREF(match->haystack);
    Py_DECREF(match->regex);
    keep_free_match(match);
}

/* The part of a haystack between two offsets in bytes. */
static inline PyObject *part_of_bytes(const Haystack *haystack, size_t start, size_t end)
{
    const char *bytes = (const char *)haystack->bytes + start;
    Py_ssize_t length = (Py_ssize_t)(end - start);
    if (!haystack->is_str)
        return PyBytes_FromStringAndSize(bytes, length);
    /* Cutting an ASCII str costs less than decoding, and decoding less than cutting another one. */
    return haystack->has_characters ? PyUnicode_FromStringAndSize(bytes, length) : PyUnicode_Substring(haystack->object, (Py_ssize_t)start, (Py_ssize_t)end);
}

/* The part of a str or of a buffer between two offsets, as it is now: a buffer may have been written to, and may be shorter. */
static __attribute__((noinline)) PyObject *part_of_other(PyObject *object, Py_ssize_t start, Py_ssize_t end)
{
    Haystack haystack;
    if (PyUnicode_Check(object))
        return PyUnicode_Substring(object, start, end);
    if (open_haystack(&haystack, object) < 0)
        return NULL;
    Py_ssize_t length = (Py_ssize_t)haystack.length;
    end = end < length ? end : length;
    start = start < end ? start : end;
    PyObject *part = part_of_bytes(&haystack, (size_t)start, (size_t)end);
    close_haystack(&haystack);
    return part;
}

/* A short str of ASCII characters that was made: they, and a one in the top bit of the last of them. */
typedef struct {
    uint64_t key;
    PyObject *str;
} KnownStr;

/* Each one is where its key says, and the next one there replaces it. Texts repeat their words, and to look for one of these takes less than
   to make it anew. A str is kept when it is made the second time, so those that never come again cost little. */
static KnownStr known_strs[1 << KNOWN_BITS];

static __attribute__((noinline)) PyObject *make_known(KnownStr *known, uint64_t key, const char *bytes, Py_ssize_t length)
{
    PyObject *made = PyUnicode_FromStringAndSize(bytes, length);
    if (known->key == key) {
        known->str = made ? new_reference(made) : NULL;
        return made;
    }
    known->key = key;
    Py_CLEAR(known->str);
    return made;
}

/* The str of the ASCII bytes between two offsets, before which there is nothing that may not be read. The word that is read ends with them. */
static inline PyObject *part_of_ascii(const char *origin, Py_ssize_t start, Py_ssize_t end)
{
    Py_ssize_t length = end - start;
    if (length < 1 || length > 8 || end < 8)
        return PyUnicode_FromStringAndSize(origin + start, length);
    uint64_t key = (word_at((const uint8_t *)origin + end - 8) | (uint64_t)1 << 63) >> 8 * (8 - length);
    KnownStr *known = &known_strs[key * 0x9e3779b97f4a7c15u >> (64 - KNOWN_BITS)];
    return known->key == key && known->str ? new_reference(known->str) : make_known(known, key, origin + start, length);
}

/* The part of a match between two offsets. */
static inline PyObject *part_of(const Match *match, Py_ssize_t start, Py_ssize_t end)
{
    PyObject *haystack = match->haystack;
    if (PyBytes_CheckExact(haystack))
        return PyBytes_FromStringAndSize(match->origin + start, end - start);
    if (match->origin)
        return part_of_ascii(match->origin, start, end);
    return PyUnicode_CheckExact(haystack) ? PyUnicode_Substring(haystack, start, end) : part_of_other(haystack, start, end);
}

/* Counts the characters before the offsets of all groups but the whole match. Groups are inside of their match. */
static void count_offsets(const Match *match, const Haystack *haystack, const size_t *slots, Py_ssize_t count, Py_ssize_t *offsets)
{
    Position first = {(size_t)match->place.start, (size_t)match->start}, position = first;
    for (Py_ssize_t i = 1; i < count; i++) {
        const size_t *pair = slots + 2 * i;
        Py_ssize_t *kept = offsets + 2 * (i - 1);
        kept[0] = kept[1] = -1;
        if (pair[0] == HANNEDDOIS_NO_OFFSET)
            continue;
        if (pair[0] < position.byte)
            position = first;
        kept[0] = (Py_ssize_t)move_to(&position, haystack, pair[0]);
        Position end = position;
        kept[1] = (Py_ssize_t)move_to(&end, haystack, pair[1]);
    }
}

/* Those of a match in which each character is one byte, and which starts so many characters earlier than bytes. */
static inline void move_offsets(const size_t *slots, size_t earlier, Py_ssize_t count, Py_ssize_t *offsets)
{
    for (Py_ssize_t i = 0; i < 2 * (count - 1); i++)
        offsets[i] = slots[2 + i] == HANNEDDOIS_NO_OFFSET ? -1 : (Py_ssize_t)(slots[2 + i] - earlier);
}

/* The place for the offsets of all groups but the whole match, or NULL with an error. */
static inline Py_ssize_t *room_for_offsets(Match *match, Py_ssize_t count)
{
    if (count - 1 <= FEW_GROUPS)
        return match->offsets = match->few;
    match->is_simple = 0;
    match->offsets = malloc((size_t)(count - 1) * 2 * sizeof *match->offsets);
    if (!match->offsets)
        PyErr_NoMemory();
    return match->offsets;
}

/* Offsets in bytes are those of the slots: HANNEDDOIS_NO_OFFSET is -1 there. */
static inline void copy_offsets(Py_ssize_t *offsets, const size_t *slots, Py_ssize_t count)
{
    for (Py_ssize_t i = 0; i < count - 1; i++)
        memcpy(offsets + 2 * i, slots + 2 + 2 * i, 2 * sizeof *slots);
}

/* Keeps the offsets of all groups but the whole match. */
static inline int keep_offsets(Match *match, const Haystack *haystack, const size_t *slots, Py_ssize_t count)
{
    Py_ssize_t *offsets = room_for_offsets(match, count);
    if (!offsets)
        return -1;
    if (!haystack->has_characters)
        copy_offsets(offsets, slots, count);
    else if (slots[1] - slots[0] == (size_t)(match->end - match->start))
        move_offsets(slots, (size_t)(match->place.start - match->start), count, offsets);
    else
        count_offsets(match, haystack, slots, count, offsets);
    return 0;
}

/* Searches the match again, with its groups. Returns 0 without an error if that is another one by now. */
static int search_groups(Match *match, Haystack *haystack, size_t *slots, Py_ssize_t count)
{
    Matcher *matcher = (Matcher *)(match->finder ? match->finder : match->regex);
    Search search;
    hanneddois_match found;
    hanneddois_error error;
    size_t length = (size_t)match->place.length, start = (size_t)match->place.start, from = start - (size_t)match->place.back;
    if (haystack->length < length || begin_search(matcher, &matcher->stock, haystack, &search) < 0)
        return 0;
    /* Before a match that is sought at one offset, its finder sees the character there, and no other. */
    size_t skipped = match->finder ? from : 0;
    hanneddois_status status = hanneddois_captures(&search.handle, haystack->bytes + skipped, length - skipped, from - skipped, &found, slots,
                                                   (size_t)(2 * count), &error);
    end_search(&search);
    if (is_failure(status))
        raise_error(&error);
    if (status != HANNEDDOIS_OK || found.pattern != (size_t)match->pattern || found.start + skipped != from)
        return 0;
    for (Py_ssize_t i = 1; i < 2 * count; i++)
        slots[i] += slots[i] == HANNEDDOIS_NO_OFFSET ? 0 : skipped;
    slots[0] = start;
    return keep_offsets(match, haystack, slots, count) == 0;
}

static int find_groups(Match *match, Py_ssize_t count)
{
    Haystack haystack;
    if (open_haystack(&haystack, match->haystack) < 0)
        return -1;
    size_t *slots = malloc((size_t)count * 2 * sizeof *slots);
    if (!slots)
        PyErr_NoMemory();
    else if (!search_groups(match, &haystack, slots, count) && !PyErr_Occurred())
        PyErr_SetString(PyExc_ValueError, "the haystack was changed after the match was found");
    free(slots);
    close_haystack(&haystack);
    return match->offsets ? 0 : -1;
}

/* How many groups the match has, with group 0, or -1 if their names can't be found. */
static Py_ssize_t count_of(const Match *match)
{
    Matcher *matcher = (Matcher *)match->regex;
    return find_names(matcher) < 0 ? -1 : group_count(matcher, match->pattern);
}

/* The offsets of the groups from 1 on, of which there has to be one. They are found when somebody first asks for one. */
static inline const Py_ssize_t *offsets_of(Match *match, Py_ssize_t count)
{
    if (!match->offsets) {
        ((Matcher *)match->regex)->asked++;
        if (find_groups(match, count) < 0)
            return NULL;
    }
    return match->offsets;
}

/* The number of a group, which a caller gives as a number or a name, or -1. */
static Py_ssize_t number_of(Match *match, PyObject *group)
{
    Py_ssize_t count = count_of(match), number = -1;
    if (count < 0)
        return -1;
    if (PyLong_Check(group) || PyIndex_Check(group)) {
        number = PyNumber_AsSsize_t(group, NULL);
    } else if (PyUnicode_Check(group)) {
        PyObject *found = PyDict_GetItemWithError(PyTuple_GetItem(((Matcher *)match->regex)->indexes, match->pattern), group);
        number = found ? PyLong_AsSsize_t(found) : -1;
    }
    if (number >= 0 && number < count)
        return number;
    if (!PyErr_Occurred())
        PyErr_SetString(PyExc_IndexError, "no such group");
    return -1;
}

/* Finds the offsets of a group, which is 0 if it is NULL. */
static int find_span(PyObject *self, PyObject *group, Py_ssize_t *start, Py_ssize_t *end)
{
    Match *match = (Match *)self;
    Py_ssize_t number = group ? number_of(match, group) : 0;
    *start = match->start;
    *end = match->end;
    if (number <= 0)
        return (int)number;
    const Py_ssize_t *offsets = offsets_of(match, group_count((Matcher *)match->regex, match->pattern));
    if (!offsets)
        return -1;
    *start = offsets[2 * (number - 1)];
    *end = offsets[2 * (number - 1) + 1];
    return 0;
}

static PyObject *group_of(PyObject *self, PyObject *group)
{
    Py_ssize_t start, end;
    if (find_span(self, group, &start, &end) < 0)
        return NULL;
    return start < 0 ? new_reference(Py_None) : part_of((Match *)self, start, end);
}

static PyObject *match_group(PyObject *self, PyObject *const *args, Py_ssize_t nargs)
{
    if (nargs < 2)
        return group_of(self, nargs ? args[0] : NULL);
    PyObject *parts = PyTuple_New(nargs);
    for (Py_ssize_t i = 0; parts && i < nargs; i++) {
        PyObject *part = group_of(self, args[i]);
        if (!part || PyTuple_SetItem(parts, i, part) < 0)
            Py_CLEAR(parts);
    }
    return parts;
}

/* The part between two offsets, as `part_of`, or what stands for a group that took no part. */
static inline PyObject *part_or(const Match *match, const Py_ssize_t *pair, PyObject *otherwise)
{
    return pair[0] < 0 ? new_reference(otherwise) : part_of(match, pair[0], pair[1]);
}

/* The only parameter of groups and groupdict, if there is any argument. */
static __attribute__((noinline)) int parse_default_of(const char *name, PyObject *const *args, Py_ssize_t nargs, PyObject *keywords, PyObject **parsed)
{
    Py_ssize_t count = keywords ? PyTuple_Size(keywords) : 0;
    *parsed = nargs + count ? args[0] : Py_None;
    if (nargs + count > 1) {
        PyErr_Format(PyExc_TypeError, "%s() takes at most 1 argument (%zd given)", name, nargs + count);
        return -1;
    }
    if (count && PyUnicode_CompareWithASCIIString(PyTuple_GetItem(keywords, 0), "default") != 0) {
        PyErr_Format(PyExc_TypeError, "%s() got an unexpected keyword argument %R", name, PyTuple_GetItem(keywords, 0));
        return -1;
    }
    return 0;
}

static inline int parse_default(const char *name, PyObject *const *args, Py_ssize_t nargs, PyObject *keywords, PyObject **parsed)
{
    *parsed = Py_None;
    return nargs || keywords ? parse_default_of(name, args, nargs, keywords, parsed) : 0;
}

_Static_assert(FEW_GROUPS == 4, "so many objects are passed to PyTuple_Pack");

/* For each number of groups the last tuple that was returned, or NULL. All that these have are short parts and None. If nothing else refers to
   one any more, it is filled anew, as zip does: that costs less than to make one. */
static PyObject *last_tuples[FEW_GROUPS + 1];
/* Whether tuples may be filled anew. From 3.14 on they keep their hash. */
static int may_refill;

static int find_may_refill(void)
{
    PyObject *version = PySys_GetObject("hexversion");
    long number = version ? PyLong_AsLong(version) : 0;
    may_refill = number > 0 && number < 0x030e0000;
    return number < 0 && PyErr_Occurred() ? -1 : 0;
}

/* Fills a tuple to which nothing else refers, and takes over the references to the parts. */
static inline PyObject *refill_tuple(PyObject *tuple, PyObject *const *parts, Py_ssize_t count)
{
    for (Py_ssize_t i = 0; i < count; i++)
        PyTuple_SetItem(tuple, i, parts[i]);
    return new_reference(tuple);
}

/* Packing a few objects costs less than setting each. PyTuple_Pack reads as many arguments as its first one says. Takes over the references. */
static inline PyObject *pack_tuple(PyObject *const *parts, Py_ssize_t count)
{
    PyObject *tuple = PyTuple_Pack(count, parts[0], parts[1], parts[2], parts[3]);
    for (Py_ssize_t i = 0; i < count; i++)
        Py_DECREF(parts[i]);
    return tuple;
}

/* A tuple of 1 to FEW_GROUPS parts of a match, whose references it takes over. A longer match isn't kept in memory. */
static inline PyObject *tuple_of(const Match *match, PyObject *const *parts, Py_ssize_t count, PyObject *otherwise)
{
    PyObject *last = last_tuples[count];
    if (!may_refill || otherwise != Py_None || match->end - match->start > MOST_KEPT)
        return pack_tuple(parts, count);
    if (last && !is_shared(last))
        return refill_tuple(last, parts, count);
    PyObject *tuple = pack_tuple(parts, count);
    last_tuples[count] = tuple ? new_reference(tuple) : NULL;
    Py_XDECREF(last);
    return tuple;
}

/* The tuple of 1 to FEW_GROUPS groups. */
static inline PyObject *few_groups_of(const Match *match, const Py_ssize_t *offsets, Py_ssize_t count, PyObject *otherwise)
{
    PyObject *parts[FEW_GROUPS] = {NULL};
    for (Py_ssize_t i = 0; i < count; i++) {
        parts[i] = part_or(match, offsets + 2 * i, otherwise);
        if (parts[i])
            continue;
        while (i > 0)
            Py_DECREF(parts[--i]);
        return NULL;
    }
    return tuple_of(match, parts, count, otherwise);
}

static __attribute__((noinline)) PyObject *many_groups_of(const Match *match, const Py_ssize_t *offsets, Py_ssize_t count, PyObject *otherwise)
{
    PyObject *parts = PyTuple_New(count);
    for (Py_ssize_t i = 0; parts && i < count; i++) {
        PyObject *part = part_or(match, offsets + 2 * i, otherwise);
        if (!part || PyTuple_SetItem(parts, i, part) < 0)
            Py_CLEAR(parts);
    }
    return parts;
}

static PyObject *match_groups(PyObject *self, PyObject *const *args, Py_ssize_t nargs, PyObject *keywords)
{
    Match *match = (Match *)self;
    PyObject *otherwise;
    Py_ssize_t count = count_of(match);
    if (count < 0 || parse_default("groups", args, nargs, keywords, &otherwise) < 0)
        return NULL;
    if (count == 1)
        return PyTuple_New(0);
    const Py_ssize_t *offsets = offsets_of(match, count);
    if (!offsets)
        return NULL;
    return count - 1 <= FEW_GROUPS ? few_groups_of(match, offsets, count - 1, otherwise) : many_groups_of(match, offsets, count - 1, otherwise);
}

static PyObject *match_groupdict(PyObject *self, PyObject *const *args, Py_ssize_t nargs, PyObject *keywords)
{
    Match *match = (Match *)self;
    PyObject *otherwise;
    Py_ssize_t count = count_of(match);
    if (count < 0 || parse_default("groupdict", args, nargs, keywords, &otherwise) < 0)
        return NULL;
    PyObject *names = PyTuple_GetItem(((Matcher *)match->regex)->names, match->pattern);
    const Py_ssize_t *offsets = count > 1 ? offsets_of(match, count) : match->few;
    PyObject *parts = offsets ? PyDict_New() : NULL;
    for (Py_ssize_t i = 1; parts && i < count; i++) {
        PyObject *name = PyTuple_GetItem(names, i);
        if (name == Py_None)
            continue;
        PyObject *part = part_or(match, offsets + 2 * (i - 1), otherwise);
        if (!part || PyDict_SetItem(parts, name, part) < 0)
            Py_CLEAR(parts);
        Py_XDECREF(part);
    }
    return parts;
}

/* The group that a method takes as its only parameter, if any. */
static int parse_span(const char *name, PyObject *self, PyObject *const *args, Py_ssize_t nargs, Py_ssize_t *start, Py_ssize_t *end)
{
    if (nargs < 2)
        return find_span(self, nargs ? args[0] : NULL, start, end);
    PyErr_Format(PyExc_TypeError, "%s() takes at most 1 argument (%zd given)", name, nargs);
    return -1;
}

static PyObject *make_pair(Py_ssize_t start, Py_ssize_t end)
{
    PyObject *pair = PyTuple_New(2), *first = PyLong_FromSsize_t(start), *second = PyLong_FromSsize_t(end);
    if (pair && first && second) {
        PyTuple_SetItem(pair, 0, first);
        PyTuple_SetItem(pair, 1, second);
        return pair;
    }
    Py_XDECREF(first);
    Py_XDECREF(second);
    Py_XDECREF(pair);
    return NULL;
}

static PyObject *match_span(PyObject *self, PyObject *const *args, Py_ssize_t nargs)
{
    Py_ssize_t start, end;
    return parse_span("span", self, args, nargs, &start, &end) < 0 ? NULL : make_pair(start, end);
}

static PyObject *match_start(PyObject *self, PyObject *const *args, Py_ssize_t nargs)
{
    Py_ssize_t start, end;
    return parse_span("start", self, args, nargs, &start, &end) < 0 ? NULL : PyLong_FromSsize_t(start);
}

static PyObject *match_end(PyObject *self, PyObject *const *args, Py_ssize_t nargs)
{
    Py_ssize_t start, end;
    return parse_span("end", self, args, nargs, &start, &end) < 0 ? NULL : PyLong_FromSsize_t(end);
}

static PyObject *match_regs(PyObject *self, void *Py_UNUSED(closure))
{
    Match *match = (Match *)self;
    Py_ssize_t count = count_of(match);
    const Py_ssize_t *offsets = count > 1 ? offsets_of(match, count) : match->few;
    PyObject *pairs = count > 0 && offsets ? PyTuple_New(count) : NULL;
    for (Py_ssize_t i = 0; pairs && i < count; i++) {
        PyObject *pair = i ? make_pair(offsets[2 * i - 2], offsets[2 * i - 1]) : make_pair(match->start, match->end);
        if (!pair || PyTuple_SetItem(pairs, i, pair) < 0)
            Py_CLEAR(pairs);
    }
    return pairs;
}

static PyObject *match_is_anchored(PyObject *self, void *Py_UNUSED(closure))
{
    return PyBool_FromLong(((Match *)self)->finder != NULL);
}

static PyMemberDef match_members[] = {
    {"pattern", T_PYSSIZET, offsetof(Match, pattern), READONLY, "The number of the pattern that matches, from 0."},
    {"pos", T_PYSSIZET, offsetof(Match, place.pos), READONLY, "The offset from which on the search was made."},
    {"endpos", T_PYSSIZET, offsetof(Match, place.endpos), READONLY, "The offset up to which the search was made."},
    {"haystack", T_OBJECT, offsetof(Match, haystack), READONLY, "What was searched."},
    {"string", T_OBJECT, offsetof(Match, haystack), READONLY, "What was searched, by the name that it has in re."},
    {"re", T_OBJECT, offsetof(Match, regex), READONLY, "The regex that found the match."},
    {NULL, 0, 0, 0, NULL},
};

static PyGetSetDef match_properties[] = {
    {"regs", match_regs, NULL, "The pairs of start and end of all groups; -1 and -1 for one that took no part.", NULL},
    {"_is_anchored", match_is_anchored, NULL, NULL, NULL},
    {NULL, NULL, NULL, NULL, NULL},
};

#define FAST(name, function, doc) {name, (PyCFunction)(void (*)(void))function, METH_FASTCALL, name doc}
#define FAST_WITH_KEYWORDS(name, function, doc) {name, (PyCFunction)(void (*)(void))function, METH_FASTCALL | METH_KEYWORDS, name doc}

static PyMethodDef match_methods[] = {
    FAST("group", match_group,
         "($self, /, *groups)\n--\n\nThe part of the haystack that a group matches, by its number or name: a str of a str, and otherwise bytes.\n\n"
         "Without an argument it is that of the whole match, and with several a tuple. A group that took no part is None."),
    FAST_WITH_KEYWORDS("groups", match_groups,
                       "($self, /, default=None)\n--\n\nThe tuple of the groups from 1 on. A group that took no part is the default."),
    FAST_WITH_KEYWORDS("groupdict", match_groupdict,
                       "($self, /, default=None)\n--\n\nThe groups that have a name, by their names. A group that took no part is the default."),
    FAST("span", match_span, "($self, group=0, /)\n--\n\nThe pair of start and end of a group; -1 and -1 if it took no part."),
    FAST("start", match_start, "($self, group=0, /)\n--\n\nThe offset at which a group starts; -1 if it took no part."),
    FAST("end", match_end, "($self, group=0, /)\n--\n\nThe offset after a group; -1 if it took no part."),
    {"__class_getitem__", Py_GenericAlias, METH_O | METH_CLASS, NULL},
    {NULL, NULL, 0, NULL},
};

static PyType_Slot match_slots[] = {
    {Py_tp_doc, "A match, with the methods that it has in re, and the number of its pattern.\n\n"
                "Offsets count the characters of a str, and the bytes of any other haystack."},
    {Py_tp_new, match_new},
    {Py_tp_dealloc, match_dealloc},
    {Py_tp_traverse, match_traverse},
    {Py_tp_clear, match_clear},
    {Py_tp_members, match_members},
    {Py_tp_getset, match_properties},
    {Py_tp_methods, match_methods},
    {Py_mp_subscript, group_of},
    {0, NULL},
};

static PyType_Spec match_spec = {"hanneddois.Match", sizeof(Match), 0, Py_TPFLAGS_DEFAULT | Py_TPFLAGS_HAVE_GC, match_slots};

/* ---- finding one match */

static inline PyObject *find_match(Matcher *self, const Haystack *haystack, Range *range)
{
    Search search;
    hanneddois_match match;
    hanneddois_error error;
    Query query = {range->start.byte, &match.start, 0};
    if (range->is_empty)
        return new_reference(Py_None);
    if (begin_search(self, stock_for(self, haystack), haystack, &search) < 0)
        return NULL;
    hanneddois_status status = find_from(self, &search, haystack, query, &match, &error);
    end_search(&search);
    if (status == HANNEDDOIS_OK) {
        size_t start = move_to(&range->start, haystack, match.start);
        return (PyObject *)match_of(self, haystack, &match, start, move_to(&range->start, haystack, match.end), &range->place);
    }
    if (status == HANNEDDOIS_NONE)
        return new_reference(Py_None);
    raise_error(&error);
    return NULL;
}

static inline PyObject *find_parsed(PyObject *object, PyObject *const *args, Py_ssize_t nargs, PyObject *keywords, int is_strict)
{
    Matcher *self = (Matcher *)object;
    PyObject *parsed[3] = {NULL, NULL, NULL}, *result = NULL;
    Haystack haystack;
    Range range;
    if (parse_arguments(is_strict ? "find" : "search", args, nargs, keywords, 3, parsed) < 0 || open_for(self, &haystack, parsed[0]) < 0)
        return NULL;
    if (parse_range(self, &haystack, parsed + 1, is_strict, &range) == 0)
        result = find_match(self, &haystack, &range);
    close_haystack(&haystack);
    return result;
}

static PyObject *matcher_find(PyObject *self, PyObject *const *args, Py_ssize_t nargs, PyObject *keywords)
{
    return find_parsed(self, args, nargs, keywords, 1);
}

/* The bytes of a str that is ASCII or of bytes, if they are few, or NULL. */
static inline const uint8_t *few_bytes_of(Matcher *self, PyObject *object, Py_ssize_t *length)
{
    char *bytes;
    if (PyUnicode_CheckExact(object)) {
        bytes = self->fits_str ? (char *)PyUnicode_AsUTF8AndSize(object, length) : NULL;
        if (!bytes || *length > FEW_BYTES || !is_ascii(object, bytes, *length))
            bytes = NULL;
    } else if (!PyBytes_CheckExact(object) || PyBytes_AsStringAndSize(object, &bytes, length) < 0 || *length > FEW_BYTES) {
        bytes = NULL;
    }
    return (const uint8_t *)bytes;
}

/* The bytes of the only argument of a search, if they are few, and one call with an idle handle searches them. Otherwise NULL. */
static inline const uint8_t *plain_bytes_of(Matcher *self, PyObject *const *args, Py_ssize_t nargs, PyObject *keywords, Py_ssize_t *length)
{
    if (nargs != 1 || keywords || !self->has_plain_searches || self->stock.idle_count == 0)
        return NULL;
    const uint8_t *bytes = few_bytes_of(self, args[0], length);
    if (!bytes)
        PyErr_Clear();
    return bytes;
}

/* A handle for a search of few bytes. The interpreter's lock is kept, so nobody else can use it, and it isn't taken out of its stock. */
static inline hanneddois_regex *idle_handle(Matcher *self)
{
    return &self->stock.idle[self->stock.idle_count - 1];
}

static inline PyObject *search_few(Matcher *self, PyObject *object, const uint8_t *bytes, Py_ssize_t length)
{
    hanneddois_match match;
    hanneddois_error error;
    hanneddois_status status = hanneddois_find_at(idle_handle(self), bytes, (size_t)length, 0, &match, &error);
    if (status == HANNEDDOIS_OK) {
        Place place = {0, 0, length, 0, length};
        return (PyObject *)make_match(self, object, &match, match.start, match.end, &place, PyBytes_CheckExact(object) ? (const char *)bytes : NULL);
    }
    if (status == HANNEDDOIS_NONE)
        return new_reference(Py_None);
    raise_error(&error);
    return NULL;
}

static PyObject *matcher_search(PyObject *object, PyObject *const *args, Py_ssize_t nargs, PyObject *keywords)
{
    Matcher *self = (Matcher *)object;
    Py_ssize_t length;
    const uint8_t *bytes = plain_bytes_of(self, args, nargs, keywords, &length);
    return bytes ? search_few(self, args[0], bytes, length) : find_parsed(object, args, nargs, keywords, 0);
}

/* How many bytes the character has that ends at an offset above 0; if none ends there, the byte before it is one. */
static size_t character_before(const Haystack *haystack, size_t offset, int *anchor)
{
    size_t length = 1;
    *anchor = AFTER_CHARACTER;
    while (length < 4 && length < offset && is_inside_character(haystack, offset - length))
        length++;
    PyObject *decoded = PyUnicode_DecodeUTF8((const char *)haystack->bytes + offset - length, (Py_ssize_t)length, NULL);
    if (decoded && PyUnicode_GetLength(decoded) == 1) {
        Py_DECREF(decoded);
        return length;
    }
    Py_XDECREF(decoded);
    PyErr_Clear();
    *anchor = AFTER_BYTE;
    return 1;
}

/* The regex that matches where the patterns do, but at one offset alone. Regex makes it, when it is first needed. */
static Matcher *find_anchored(Matcher *self, int anchor, int is_full)
{
    PyObject **kept = &self->anchored[anchor][is_full];
    if (*kept)
        return (Matcher *)*kept;
    PyObject *made = PyObject_CallMethod((PyObject *)self, "_anchored", "ii", anchor, is_full);
    if (made && !PyObject_TypeCheck(made, matcher_type)) {
        PyErr_SetString(PyExc_TypeError, "_anchored() returns a regex");
        Py_CLEAR(made);
    }
    if (*kept)
        Py_XDECREF(made);
    else
        *kept = made;
    return (Matcher *)*kept;
}

/* Matches at one offset, and perhaps up to the end: by a regex that begins with the character before that offset, so that it sees that
   character and reads no more than the match. */
static PyObject *match_at(Matcher *self, Haystack *haystack, Range *range, int is_full)
{
    Search search;
    hanneddois_match match;
    hanneddois_error error;
    int anchor = AT_START;
    size_t start = range->start.byte, back = 0;
    if (range->is_empty)
        return new_reference(Py_None);
    if (check_utf8(self, haystack) < 0)
        return NULL;
    if (start > 0)
        back = character_before(haystack, start, &anchor);
    Matcher *finder = find_anchored(self, anchor, is_full);
    if (!finder || begin_search(finder, &finder->stock, haystack, &search) < 0)
        return NULL;
    Haystack rest = *haystack;
    rest.bytes += start - back;
    rest.length -= start - back;
    Query query = {0, &match.start, 0};
    hanneddois_status status = find_once(finder, &search, &rest, &query, &match, &error);
    end_search(&search);
    if (is_failure(status)) {
        raise_error(&error);
        return NULL;
    }
    hanneddois_match row = {match.pattern, start, start - back + match.end};
    if (status == HANNEDDOIS_NONE || (haystack->is_utf8 && is_inside_character(haystack, start)))
        return new_reference(Py_None);
    size_t first = range->start.character;
    range->place.back = (Py_ssize_t)back;
    Match *made = match_of(self, haystack, &row, haystack->has_characters ? first : start, move_to(&range->start, haystack, row.end),
                           &range->place);
    if (made) {
        made->is_simple = 0;
        made->finder = new_reference((PyObject *)finder);
    }
    return (PyObject *)made;
}

static PyObject *match_parsed(const char *name, PyObject *object, PyObject *const *args, Py_ssize_t nargs, PyObject *keywords, int is_full)
{
    Matcher *self = (Matcher *)object;
    PyObject *parsed[3] = {NULL, NULL, NULL}, *result = NULL;
    Haystack haystack;
    Range range;
    if (parse_arguments(name, args, nargs, keywords, 3, parsed) < 0 || open_for(self, &haystack, parsed[0]) < 0)
        return NULL;
    if (parse_range(self, &haystack, parsed + 1, 0, &range) == 0)
        result = match_at(self, &haystack, &range, is_full);
    close_haystack(&haystack);
    return result;
}

static PyObject *matcher_match(PyObject *self, PyObject *const *args, Py_ssize_t nargs, PyObject *keywords)
{
    return match_parsed("match", self, args, nargs, keywords, 0);
}

static PyObject *matcher_fullmatch(PyObject *self, PyObject *const *args, Py_ssize_t nargs, PyObject *keywords)
{
    return match_parsed("fullmatch", self, args, nargs, keywords, 1);
}

/* What a test for a match returns to Python. */
static PyObject *reported(hanneddois_status status, const hanneddois_error *error)
{
    if (!is_failure(status))
        return PyBool_FromLong(status == HANNEDDOIS_OK);
    raise_error(error);
    return NULL;
}

static PyObject *is_match(Matcher *self, const Haystack *haystack)
{
    Search search;
    hanneddois_match match;
    hanneddois_error error;
    hanneddois_status status;
    Query query = {0, &match.start, 0};
    if (begin_search(self, stock_for(self, haystack), haystack, &search) < 0)
        return NULL;
    /* Whether an empty match is inside a character shows only in its offset. */
    if (haystack->is_utf8)
        status = find_from(self, &search, haystack, query, &match, &error);
    else
        status = hanneddois_is_match(&search.handle, haystack->bytes, haystack->length, &error);
    end_search(&search);
    return reported(status, &error);
}

static PyObject *matcher_is_match(PyObject *object, PyObject *const *args, Py_ssize_t nargs, PyObject *keywords)
{
    Matcher *self = (Matcher *)object;
    Haystack haystack;
    hanneddois_error error;
    Py_ssize_t length;
    const uint8_t *bytes = plain_bytes_of(self, args, nargs, keywords, &length);
    if (bytes)
        return reported(hanneddois_is_match(idle_handle(self), bytes, (size_t)length, &error), &error);
    if (parse_haystack(self, "is_match", args, nargs, keywords, &haystack) < 0)
        return NULL;
    PyObject *result = is_match(self, &haystack);
    close_haystack(&haystack);
    return result;
}

/* The numbers of the patterns that are marked. */
static PyObject *list_marked(const uint8_t *marks, Py_ssize_t count)
{
    PyObject *list = PyList_New(0);
    for (Py_ssize_t i = 0; list && i < count; i++) {
        if (!marks[i])
            continue;
        PyObject *number = PyLong_FromSsize_t(i);
        if (!number || PyList_Append(list, number) < 0)
            Py_CLEAR(list);
        Py_XDECREF(number);
    }
    return list;
}

static PyObject *matching_patterns(Matcher *self, const Haystack *haystack, uint8_t *marks)
{
    Search search;
    hanneddois_error error;
    size_t found;
    if (begin_search(self, haystack->has_characters ? &self->utf8_stock : stock_for(self, haystack), haystack, &search) < 0)
        return NULL;
    hanneddois_status status =
        hanneddois_matching_patterns(&search.handle, haystack->bytes, haystack->length, marks, (size_t)self->count, &found, &error);
    end_search(&search);
    if (!is_failure(status))
        return list_marked(marks, self->count);
    raise_error(&error);
    return NULL;
}

static PyObject *matcher_matching_patterns(PyObject *object, PyObject *const *args, Py_ssize_t nargs, PyObject *keywords)
{
    Matcher *self = (Matcher *)object;
    PyObject *result = NULL;
    Haystack haystack;
    if (parse_haystack(self, "matching_patterns", args, nargs, keywords, &haystack) < 0)
        return NULL;
    uint8_t *marks = calloc((size_t)self->count, 1);
    if (marks)
        result = matching_patterns(self, &haystack, marks);
    else
        PyErr_NoMemory();
    free(marks);
    close_haystack(&haystack);
    return result;
}

/* ---- iterators */

typedef struct {
    PyObject_HEAD
    Scan scan;
    /* How far characters are counted. */
    Position position;
    Place place;
    /* How many matches of the regex were asked for their groups before these were found. */
    size_t asked_before;
    /* Whether matches aren't tracked. */
    int is_quick;
    /* The bytes from which on offsets count in a match, or NULL, as in `origin_of`, if each character is one byte. */
    const char *origin;
} Iterator;

/* Before more matches are found: they are found with their groups, if the groups of most of the last ones were asked for. */
static int choose_width(Iterator *self)
{
    Scan *scan = &self->scan;
    size_t asked = scan->matcher->asked - self->asked_before;
    self->asked_before = scan->matcher->asked;
    if (scan->width > 0 || scan->count == 0 || 2 * asked < scan->count)
        return 0;
    return want_groups(scan);
}

/* Finds further matches, once all were returned. Returns whether there is one; if not, an error may be raised. */
static __attribute__((noinline)) int refill(Iterator *self)
{
    Scan *scan = &self->scan;
    if (scan->is_searching) {
        PyErr_SetString(PyExc_ValueError, "another thread is in this iterator");
        return 0;
    }
    if (scan->status == HANNEDDOIS_OK && choose_width(self) < 0)
        return 0;
    if (has_more(scan))
        return 1;
    if (scan->status != HANNEDDOIS_OK)
        end_scan(scan);
    return 0;
}

/* Adds its groups to the match of the last row, if they were searched for. */
static inline PyObject *add_groups(const Scan *scan, Match *match)
{
    Py_ssize_t count = match && scan->width ? group_count(scan->matcher, match->pattern) : 0;
    if (count > 1 && keep_offsets(match, &scan->haystack, slots_of(scan), count) < 0)
        Py_CLEAR(match);
    return (PyObject *)match;
}

/* The next match of any haystack. */
static __attribute__((noinline)) PyObject *next_match(Iterator *self)
{
    Scan *scan = &self->scan;
    if (scan->next == scan->count && !refill(self))
        return NULL;
    const hanneddois_match *row = &scan->rows[scan->next++];
    size_t start = move_to(&self->position, &scan->haystack, row->start), end = move_to(&self->position, &scan->haystack, row->end);
    return add_groups(scan, match_of(scan->matcher, &scan->haystack, row, start, end, &self->place));
}

static __attribute__((noinline)) PyObject *add_many_groups(const Scan *scan, Match *match)
{
    return add_groups(scan, match);
}

/* Makes the match of the next row. It starts so many characters earlier than bytes, and each of its characters is one byte. */
static inline PyObject *quick_match(Iterator *self, size_t earlier)
{
    Scan *scan = &self->scan;
    const hanneddois_match *row = &scan->rows[scan->next++];
    self->position = (Position){row->end, row->end - earlier};
    Match *match = reuse_match();
    fill_match(match, scan->matcher, scan->haystack.object, row, row->start - earlier, row->end - earlier, &self->place, self->origin + earlier);
    if (!scan->width)
        return (PyObject *)match;
    Py_ssize_t count = group_count(scan->matcher, match->pattern);
    if (count - 1 > FEW_GROUPS)
        return add_many_groups(scan, match);
    if (count > 1)
        move_offsets(slots_of(scan), earlier, count, match->offsets = match->few);
    return (PyObject *)match;
}

/* For 16 bytes, which of them are in a character but not its first: a one in the lowest bit of each such byte. */
typedef struct {
    uint64_t words[2];
} Inner;

static inline Inner inner_bytes(const uint8_t *bytes)
{
    const uint64_t ones = 0x0101010101010101u;
    uint64_t first = word_at(bytes), second = word_at(bytes + 8);
    return (Inner){{(first >> 7) & ~(first >> 6) & ones, (second >> 7) & ~(second >> 6) & ones}};
}

/* How many characters start in the first bytes of these 16. */
static inline size_t characters_in(const Inner *inner, size_t bytes)
{
    uint64_t first = bytes < 8 ? inner->words[0] & ~(~(uint64_t)0 << 8 * bytes) : inner->words[0];
    uint64_t second = bytes > 8 ? inner->words[1] << 8 * (16 - bytes) : 0;
    return bytes - (size_t)(((first + second) * 0x0101010101010101u) >> 56);
}

/* Makes the match of the next row, which ends few bytes after the position. Its characters may be other than ASCII. */
static __attribute__((noinline)) PyObject *wide_match(Iterator *self)
{
    Scan *scan = &self->scan;
    const hanneddois_match *row = &scan->rows[scan->next];
    Py_ssize_t count = scan->width ? group_count(scan->matcher, (Py_ssize_t)row->pattern) : 0;
    if (count - 1 > FEW_GROUPS)
        return next_match(self);
    size_t from = self->position.byte, before = self->position.character;
    Inner inner = inner_bytes(scan->haystack.bytes + from);
    size_t start = before + characters_in(&inner, row->start - from), end = before + characters_in(&inner, row->end - from);
    scan->next++;
    self->position = (Position){row->end, end};
    Match *match = reuse_match();
    fill_match(match, scan->matcher, scan->haystack.object, row, start, end, &self->place, NULL);
    if (count <= 1)
        return (PyObject *)match;
    const size_t *slots = slots_of(scan);
    match->offsets = match->few;
    for (Py_ssize_t i = 0; i < 2 * (count - 1); i++)
        match->few[i] = slots[2 + i] == HANNEDDOIS_NO_OFFSET ? -1 : (Py_ssize_t)(before + characters_in(&inner, slots[2 + i] - from));
    return (PyObject *)match;
}

/* The next match of a str that isn't ASCII, if there is more before it than a few characters that are. */
static __attribute__((noinline)) PyObject *next_far(Iterator *self)
{
    const Haystack *haystack = &self->scan.haystack;
    const hanneddois_match *row = &self->scan.rows[self->scan.next];
    const Position *position = &self->position;
    if (!is_short_ascii(haystack, row->start, row->end))
        return row->end - position->byte <= 16 && haystack->length - position->byte >= 16 ? wide_match(self) : next_match(self);
    return quick_match(self, row->start - position->character - count_between(&self->scan.haystack, position->byte, row->start));
}

/* The next match of a str that isn't ASCII. Most matches are, and what is between two of them. */
static __attribute__((noinline)) PyObject *next_of_characters(Iterator *self)
{
    const hanneddois_match *row = &self->scan.rows[self->scan.next];
    const Position *position = &self->position;
    if (!is_short_ascii(&self->scan.haystack, position->byte, row->end))
        return next_far(self);
    return quick_match(self, position->byte - position->character);
}

/* Most matches are made by copying alone. Other calls are at the end, so that no registers are saved for them. */
static PyObject *iterator_next(PyObject *object)
{
    Iterator *self = (Iterator *)object;
    Scan *scan = &self->scan;
    if (scan->next == scan->count || !self->is_quick || !free_matches)
        return next_match(self);
    if (scan->haystack.has_characters)
        return next_of_characters(self);
    const hanneddois_match *row = &scan->rows[scan->next++];
    Match *match = reuse_match();
    fill_match(match, scan->matcher, scan->haystack.object, row, row->start, row->end, &self->place, self->origin);
    if (!scan->width)
        return (PyObject *)match;
    Py_ssize_t count = group_count(scan->matcher, match->pattern);
    if (count - 1 > FEW_GROUPS)
        return add_many_groups(scan, match);
    if (count > 1)
        copy_offsets(match->offsets = match->few, slots_of(scan), count);
    return (PyObject *)match;
}

/* Parses the arguments of a search for all matches, and begins it. */
static int begin_parsed(const char *name, PyObject *object, PyObject *const *args, Py_ssize_t nargs, PyObject *keywords, int lists_all, Scan *scan,
                        Range *range)
{
    Matcher *matcher = (Matcher *)object;
    PyObject *parsed[3] = {NULL, NULL, NULL};
    Haystack haystack;
    if (parse_arguments(name, args, nargs, keywords, 3, parsed) < 0 || open_for(matcher, &haystack, parsed[0]) < 0)
        return -1;
    if (parse_range(matcher, &haystack, parsed + 1, 0, range) < 0) {
        close_haystack(&haystack);
        return -1;
    }
    begin_scan(scan, matcher, &haystack, range, lists_all);
    return 0;
}

static PyObject *iterate(const char *name, PyObject *matcher, PyObject *const *args, Py_ssize_t nargs, PyObject *keywords, int lists_all)
{
    Scan scan;
    Range range;
    if (begin_parsed(name, matcher, args, nargs, keywords, lists_all, &scan, &range) < 0)
        return NULL;
    Iterator *self = PyObject_GC_New(Iterator, iterator_type);
    if (!self) {
        end_scan(&scan);
        return NULL;
    }
    self->scan = scan;
    self->position = range.start;
    self->place = range.place;
    self->asked_before = ((Matcher *)matcher)->asked;
    self->is_quick = is_plain(scan.haystack.object);
    self->origin = first_origin_of(&scan.haystack);
    PyObject_GC_Track(self);
    return (PyObject *)self;
}

static PyObject *matcher_find_iter(PyObject *matcher, PyObject *const *args, Py_ssize_t nargs, PyObject *keywords)
{
    return iterate("find_iter", matcher, args, nargs, keywords, 0);
}

static PyObject *matcher_finditer(PyObject *matcher, PyObject *const *args, Py_ssize_t nargs, PyObject *keywords)
{
    return iterate("finditer", matcher, args, nargs, keywords, 1);
}

static PyObject *matcher_find_all(PyObject *matcher, PyObject *const *args, Py_ssize_t nargs, PyObject *keywords)
{
    PyObject *iterator = iterate("find_all", matcher, args, nargs, keywords, 0);
    PyObject *list = iterator ? PySequence_List(iterator) : NULL;
    Py_XDECREF(iterator);
    return list;
}

static int iterator_traverse(PyObject *object, visitproc visit, void *arg)
{
    Iterator *self = (Iterator *)object;
    Py_VISIT(Py_TYPE(object));
    Py_VISIT((PyObject *)self->scan.matcher);
    Py_VISIT(self->scan.haystack.object);
    Py_VISIT(self->scan.haystack.view);
    return 0;
}

static int iterator_clear(PyObject *self)
{
    end_scan(&((Iterator *)self)->scan);
    return 0;
}

static void iterator_dealloc(PyObject *self)
{
    PyTypeObject *type = Py_TYPE(self);
    PyObject_GC_UnTrack(self);
    end_scan(&((Iterator *)self)->scan);
    PyObject_GC_Del(self);
    Py_DECREF(type);
}

static PyObject *iterator_new(PyTypeObject *type, PyObject *Py_UNUSED(args), PyObject *Py_UNUSED(kwargs))
{
    PyErr_Format(PyExc_TypeError, "only a search makes a %R", (PyObject *)type);
    return NULL;
}

static PyType_Slot iterator_slots[] = {
    {Py_tp_doc, "The matches of Regex.finditer or Regex.find_iter."},
    {Py_tp_new, iterator_new},
    {Py_tp_dealloc, iterator_dealloc},
    {Py_tp_traverse, iterator_traverse},
    {Py_tp_clear, iterator_clear},
    {Py_tp_iter, PyObject_SelfIter},
    {Py_tp_iternext, iterator_next},
    {0, NULL},
};

static PyType_Spec iterator_spec = {"hanneddois.MatchIterator", sizeof(Iterator), 0, Py_TPFLAGS_DEFAULT | Py_TPFLAGS_HAVE_GC, iterator_slots};

/* ---- lists of parts, and replacements */

/* The part of a group from 1 on. */
static PyObject *part_of_slots(const Haystack *haystack, const size_t *slots, Py_ssize_t number, PyObject *otherwise)
{
    const size_t *pair = slots + 2 * number;
    return pair[0] == HANNEDDOIS_NO_OFFSET ? new_reference(otherwise) : part_of_bytes(haystack, pair[0], pair[1]);
}

static int append(PyObject *list, PyObject *item)
{
    int status = item ? PyList_Append(list, item) : -1;
    Py_XDECREF(item);
    return status;
}

/* What findall lists of a match: the whole match if its pattern has no group, its group if it has one, and else a tuple of its groups. */
static PyObject *item_of(const Scan *scan, const hanneddois_match *row, PyObject *empty)
{
    const size_t *slots = slots_of(scan);
    Py_ssize_t count = slots ? group_count(scan->matcher, (Py_ssize_t)row->pattern) : 1;
    if (count == 1)
        return part_of_bytes(&scan->haystack, row->start, row->end);
    if (count == 2)
        return part_of_slots(&scan->haystack, slots, 1, empty);
    PyObject *parts = PyTuple_New(count - 1);
    for (Py_ssize_t i = 1; parts && i < count; i++) {
        PyObject *part = part_of_slots(&scan->haystack, slots, i, empty);
        if (!part || PyTuple_SetItem(parts, i - 1, part) < 0)
            Py_CLEAR(parts);
    }
    return parts;
}

/* Has the groups found too, if there is one. */
static int want_any_groups(Scan *scan)
{
    if (find_names(scan->matcher) < 0)
        return -1;
    return scan->matcher->most_groups > 1 ? want_groups(scan) : 0;
}

static PyObject *matcher_findall(PyObject *matcher, PyObject *const *args, Py_ssize_t nargs, PyObject *keywords)
{
    Scan scan;
    Range range;
    const hanneddois_match *row;
    if (begin_parsed("findall", matcher, args, nargs, keywords, 1, &scan, &range) < 0)
        return NULL;
    PyObject *empty = part_of_bytes(&scan.haystack, 0, 0);
    PyObject *list = empty && want_any_groups(&scan) == 0 ? PyList_New(0) : NULL;
    while (list && (row = next_row(&scan))) {
        if (append(list, item_of(&scan, row, empty)) < 0)
            Py_CLEAR(list);
    }
    if (PyErr_Occurred())
        Py_CLEAR(list);
    Py_XDECREF(empty);
    end_scan(&scan);
    return list;
}

/* Begins a search for all matches of a whole haystack, of which only so many count, or all if the limit is 0. */
static int begin_whole(Scan *scan, Matcher *matcher, PyObject *string, Py_ssize_t limit, Range *range)
{
    PyObject *none[2] = {NULL, NULL};
    Haystack haystack;
    if (open_for(matcher, &haystack, string) < 0)
        return -1;
    parse_range(matcher, &haystack, none, 0, range);
    range->is_empty = limit < 0;
    begin_scan(scan, matcher, &haystack, range, 1);
    return 0;
}

/* Appends what is before a match, and its groups. */
static int append_split(PyObject *list, const Scan *scan, const hanneddois_match *row, size_t last)
{
    const size_t *slots = slots_of(scan);
    Py_ssize_t count = slots ? group_count(scan->matcher, (Py_ssize_t)row->pattern) : 1;
    if (append(list, part_of_bytes(&scan->haystack, last, row->start)) < 0)
        return -1;
    for (Py_ssize_t i = 1; i < count; i++)
        if (append(list, part_of_slots(&scan->haystack, slots, i, Py_None)) < 0)
            return -1;
    return 0;
}

/* _split(string, maxsplit) */
static PyObject *matcher_split(PyObject *matcher, PyObject *args)
{
    PyObject *string;
    Py_ssize_t limit, count = 0;
    Scan scan;
    Range range;
    const hanneddois_match *row;
    size_t last = 0;
    if (!PyArg_ParseTuple(args, "On:_split", &string, &limit) || begin_whole(&scan, (Matcher *)matcher, string, limit, &range) < 0)
        return NULL;
    PyObject *list = want_any_groups(&scan) == 0 ? PyList_New(0) : NULL;
    while (list && (limit <= 0 || count < limit) && (row = next_row(&scan))) {
        count++;
        if (append_split(list, &scan, row, last) < 0)
            Py_CLEAR(list);
        last = row->end;
    }
    if (list && (PyErr_Occurred() || append(list, part_of_bytes(&scan.haystack, last, scan.haystack.length)) < 0))
        Py_CLEAR(list);
    end_scan(&scan);
    return list;
}

/* Bytes that grow. */
typedef struct {
    char *bytes;
    size_t length;
    size_t room;
} Output;

static int add_bytes(Output *output, const void *bytes, size_t length)
{
    if (length == 0)
        return 0;
    if (length > output->room - output->length) {
        size_t room = 2 * output->room + length + 64;
        char *grown = room < length ? NULL : realloc(output->bytes, room);
        if (!grown) {
            PyErr_NoMemory();
            return -1;
        }
        output->bytes = grown;
        output->room = room;
    }
    memcpy(output->bytes + output->length, bytes, length);
    output->length += length;
    return 0;
}

/* Adds a str to a str, or bytes to bytes. */
static int add_object(Output *output, PyObject *object, int is_str)
{
    Haystack part;
    if (PyUnicode_Check(object) != is_str) {
        raise_wrong_type(is_str ? "expected a str that replaces a match" : "expected a bytes-like object that replaces a match", object);
        return -1;
    }
    if (open_haystack(&part, object) < 0)
        return -1;
    int status = add_bytes(output, part.bytes, part.length);
    close_haystack(&part);
    return status;
}

/* Adds the parts of a template: bytes, and the numbers of groups. */
static int add_template(Output *output, const Scan *scan, const hanneddois_match *row, PyObject *parts)
{
    const size_t whole[2] = {row->start, row->end}, *slots = slots_of(scan);
    for (Py_ssize_t i = 0; i < PyTuple_Size(parts); i++) {
        PyObject *part = PyTuple_GetItem(parts, i);
        if (PyBytes_CheckExact(part)) {
            if (add_bytes(output, PyBytes_AsString(part), (size_t)PyBytes_Size(part)) < 0)
                return -1;
            continue;
        }
        Py_ssize_t number = PyLong_AsSsize_t(part);
        const size_t *pair = number ? slots + 2 * number : whole;
        if (pair[0] != HANNEDDOIS_NO_OFFSET && add_bytes(output, scan->haystack.bytes + pair[0], pair[1] - pair[0]) < 0)
            return -1;
    }
    return 0;
}

/* What is made of a haystack by a replacement, with what is known on the way. */
typedef struct {
    Scan scan;
    Range range;
    /* For each pattern the tuple of the parts of its template, or a function. */
    PyObject *by;
    Output output;
    size_t last;
} Replacement;

/* Adds what a function returns for a match. */
static int add_result(Replacement *self, const hanneddois_match *row)
{
    const Haystack *haystack = &self->scan.haystack;
    size_t start = move_to(&self->range.start, haystack, row->start);
    Position position = self->range.start;
    Match *match =
        match_of(self->scan.matcher, haystack, row, start, move_to(&position, haystack, row->end), &self->range.place);
    PyObject *result = match ? PyObject_CallFunctionObjArgs(self->by, match, NULL) : NULL;
    int status = !result ? -1 : result == Py_None ? 0 : add_object(&self->output, result, haystack->is_str);
    Py_XDECREF(match);
    Py_XDECREF(result);
    return status;
}

static int replace_one(Replacement *self, const hanneddois_match *found)
{
    hanneddois_match row = *found;
    if (add_bytes(&self->output, self->scan.haystack.bytes + self->last, row.start - self->last) < 0)
        return -1;
    self->last = row.end;
    if (PyTuple_CheckExact(self->by))
        return add_template(&self->output, &self->scan, &row, PyTuple_GetItem(self->by, (Py_ssize_t)row.pattern));
    return add_result(self, &row);
}

static PyObject *finish_replacement(Replacement *self, Py_ssize_t count)
{
    const Haystack *haystack = &self->scan.haystack;
    Output *output = &self->output;
    if (PyErr_Occurred() || add_bytes(output, haystack->bytes + self->last, haystack->length - self->last) < 0)
        return NULL;
    PyObject *made = haystack->is_str ? PyUnicode_FromStringAndSize(output->bytes, (Py_ssize_t)output->length)
                                      : PyBytes_FromStringAndSize(output->bytes, (Py_ssize_t)output->length);
    return made ? Py_BuildValue("Nn", made, count) : NULL;
}

/* _replace(string, by, limit, needs_groups): the pair of what is made of the string, and how many matches were replaced. */
static PyObject *matcher_replace(PyObject *matcher, PyObject *args)
{
    Replacement self = {.output = {NULL, 0, 0}};
    PyObject *string, *result = NULL;
    Py_ssize_t limit, count = 0;
    int needs_groups;
    const hanneddois_match *row;
    if (!PyArg_ParseTuple(args, "OOnp:_replace", &string, &self.by, &limit, &needs_groups) ||
        begin_whole(&self.scan, (Matcher *)matcher, string, limit, &self.range) < 0)
        return NULL;
    int status = needs_groups ? want_groups(&self.scan) : 0;
    while (status == 0 && (limit <= 0 || count < limit) && (row = next_row(&self.scan))) {
        count++;
        status = replace_one(&self, row);
    }
    if (status == 0)
        result = finish_replacement(&self, count);
    free(self.output.bytes);
    end_scan(&self.scan);
    return result;
}

/* ---- the module */

/* Adds up a figure of the handles that no search uses now. */
static PyObject *sum_of(Matcher *self, size_t (*figure)(hanneddois_regex *))
{
    const Stock *stocks[] = {&self->stock, &self->utf8_stock};
    size_t sum = 0;
    for (size_t i = 0; i < 2; i++)
        for (size_t k = 0; k < stocks[i]->idle_count; k++)
            sum += figure(&stocks[i]->idle[k]);
    return PyLong_FromSize_t(sum);
}

static PyObject *matcher_memory_usage(PyObject *self, void *Py_UNUSED(closure))
{
    return sum_of((Matcher *)self, hanneddois_memory_usage);
}

static PyObject *matcher_clear_count(PyObject *self, void *Py_UNUSED(closure))
{
    return sum_of((Matcher *)self, hanneddois_clear_count);
}

static PyObject *matcher_group_names(PyObject *self, void *Py_UNUSED(closure))
{
    return find_names((Matcher *)self) < 0 ? NULL : new_reference(((Matcher *)self)->names);
}

static PyGetSetDef matcher_properties[] = {
    {"group_names", matcher_group_names, NULL, "For each pattern a tuple of the names of its groups, with None for a group that has none.", NULL},
    {"memory_usage", matcher_memory_usage, NULL, "An estimate of how many bytes the caches need now, without those that searches are using.", NULL},
    {"clear_count", matcher_clear_count, NULL, "How often these caches were cleared, also those that larger ones have replaced.", NULL},
    {NULL, NULL, NULL, NULL, NULL},
};

static PyMemberDef matcher_members[] = {
    {"patterns", T_OBJECT, offsetof(Matcher, given), READONLY, "The patterns, as they were given."},
    {"pattern_count", T_PYSSIZET, offsetof(Matcher, count), READONLY, "How many patterns there are."},
    {"flags", T_UINT, offsetof(Matcher, options.flags), READONLY, "The flags."},
    {"capacity", T_PYSSIZET, offsetof(Matcher, options.capacity), READONLY, "How many bytes each of both caches may take, which is never exceeded; 0 for 2 MiB, and up to 256 MiB if searches or streams need more."},
    {"size_limit", T_PYSSIZET, offsetof(Matcher, options.size_limit), READONLY, "How many bytes each of both automata may take; 0 for 64 MiB."},
    {"nest_limit", T_UINT, offsetof(Matcher, options.nest_limit), READONLY, "How deep groups, classes and repetitions may nest; 0 for 250."},
    {NULL, 0, 0, 0, NULL},
};

static PyMethodDef matcher_methods[] = {
    FAST_WITH_KEYWORDS("is_match", matcher_is_match, "($self, /, haystack)\n--\n\nWhether there is a match in the haystack."),
    FAST_WITH_KEYWORDS("find", matcher_find,
                       "($self, /, haystack, start=0, end=sys.maxsize)\n--\n\nThe leftmost match that starts at the offset or after it, or None.\n\n"
                       "Looks, as ^ and \\b, see what is before the start. For them the haystack ends at the end."),
    FAST_WITH_KEYWORDS("search", matcher_search,
                       "($self, /, string, pos=0, endpos=sys.maxsize)\n--\n\nfind as re has it: offsets outside of the haystack stand for the "
                       "nearest one."),
    FAST_WITH_KEYWORDS("match", matcher_match, "($self, /, string, pos=0, endpos=sys.maxsize)\n--\n\nThe match that starts at the offset, or None."),
    FAST_WITH_KEYWORDS("fullmatch", matcher_fullmatch,
                       "($self, /, string, pos=0, endpos=sys.maxsize)\n--\n\nThe match from the one offset to the other, or None."),
    FAST_WITH_KEYWORDS("find_iter", matcher_find_iter,
                       "($self, /, haystack, start=0, end=sys.maxsize)\n--\n\nAn iterator over all matches, each the leftmost one from the end of the "
                       "one before it.\n\nAn empty match right at the end of the one before it is skipped."),
    FAST_WITH_KEYWORDS("finditer", matcher_finditer,
                       "($self, /, string, pos=0, endpos=sys.maxsize)\n--\n\nfind_iter as re has it: an empty match right at the end of another one is "
                       "listed too."),
    FAST_WITH_KEYWORDS("find_all", matcher_find_all, "($self, /, haystack, start=0, end=sys.maxsize)\n--\n\nThe list of the matches of find_iter."),
    FAST_WITH_KEYWORDS("findall", matcher_findall,
                       "($self, /, string, pos=0, endpos=sys.maxsize)\n--\n\nThe list of the parts that match: the whole match if its pattern has no "
                       "group, its group if it has one, and else a tuple of its groups.\n\nA group that took no part is empty."),
    FAST_WITH_KEYWORDS("matching_patterns", matcher_matching_patterns,
                       "($self, /, haystack)\n--\n\nThe numbers of the patterns that match anywhere, ascending, also if their matches overlap."),
    {"_replace", matcher_replace, METH_VARARGS, NULL},
    {"_split", matcher_split, METH_VARARGS, NULL},
    {NULL, NULL, 0, NULL},
};

static PyType_Slot matcher_slots[] = {
    {Py_tp_doc, "Compiled patterns. Regex is the class to use."},
    {Py_tp_new, matcher_new},
    {Py_tp_dealloc, matcher_dealloc},
    {Py_tp_members, matcher_members},
    {Py_tp_getset, matcher_properties},
    {Py_tp_methods, matcher_methods},
    {0, NULL},
};

static PyType_Spec matcher_spec = {"hanneddois._extension.Matcher", sizeof(Matcher), 0, Py_TPFLAGS_DEFAULT | Py_TPFLAGS_BASETYPE, matcher_slots};

/* ---- streams */

/* An automaton with its cache and streams, which are known by their numbers. One thread at a time calls it: _streams.py sees to that. */
typedef struct {
    PyObject_HEAD
    hanneddois_streams streams;
    hanneddois_end *rows;
    size_t row_count;
} StreamSet;

/* A call has room for so many ends, and for one of each pattern. */
#define LEAST_ENDS 256

/* Joins patterns, which are a tuple of bytes. Returns them as bytes, with their lengths. */
static PyObject *join_patterns(PyObject *encoded, size_t *lengths)
{
    PyObject *empty = PyBytes_FromString(""), *joined = NULL;
    for (Py_ssize_t i = 0; empty && i < PyTuple_Size(encoded); i++) {
        char *bytes;
        Py_ssize_t length;
        if (PyBytes_AsStringAndSize(PyTuple_GetItem(encoded, i), &bytes, &length) < 0)
            Py_CLEAR(empty);
        else
            lengths[i] = (size_t)length;
    }
    if (empty)
        joined = PyObject_CallMethod(empty, "join", "(O)", encoded);
    Py_XDECREF(empty);
    return joined;
}

/* Compiles the patterns, and gives up the interpreter's lock meanwhile. */
static int compile_streams(StreamSet *self, PyObject *joined, const size_t *lengths, size_t count, const hanneddois_options *options)
{
    char *bytes;
    Py_ssize_t length;
    hanneddois_status status;
    hanneddois_error error;
    if (PyBytes_AsStringAndSize(joined, &bytes, &length) < 0)
        return -1;
    Py_BEGIN_ALLOW_THREADS
    status = hanneddois_streams_new(&self->streams, (const uint8_t *)bytes, (size_t)length, lengths, count, options, &error);
    Py_END_ALLOW_THREADS
    if (status == HANNEDDOIS_OK)
        return 0;
    raise_error(&error);
    return -1;
}

static int fill_streams(StreamSet *self, PyObject *encoded, const hanneddois_options *options)
{
    size_t count = (size_t)PyTuple_Size(encoded);
    size_t *lengths = PyMem_Malloc((count ? count : 1) * sizeof *lengths);
    self->row_count = count < LEAST_ENDS ? LEAST_ENDS : count;
    self->rows = PyMem_Malloc(self->row_count * sizeof *self->rows);
    PyObject *joined = lengths && self->rows ? join_patterns(encoded, lengths) : PyErr_NoMemory();
    int result = joined ? compile_streams(self, joined, lengths, count, options) : -1;
    Py_XDECREF(joined);
    PyMem_Free(lengths);
    return result;
}

static PyObject *streams_new(PyTypeObject *type, PyObject *args, PyObject *Py_UNUSED(kwargs))
{
    PyObject *encoded;
    unsigned flags, nest_limit;
    Py_ssize_t capacity, size_limit;
    if (!PyArg_ParseTuple(args, "O!InnI:StreamSet", &PyTuple_Type, &encoded, &flags, &capacity, &size_limit, &nest_limit))
        return NULL;
    hanneddois_options options = {flags, nest_limit, (size_t)capacity, (size_t)size_limit};
    allocfunc allocate = (allocfunc)PyType_GetSlot(type, Py_tp_alloc);
    StreamSet *self = (StreamSet *)allocate(type, 0);
    if (self && fill_streams(self, encoded, &options) < 0)
        Py_CLEAR(self);
    return (PyObject *)self;
}

static void streams_dealloc(PyObject *object)
{
    StreamSet *self = (StreamSet *)object;
    PyTypeObject *type = Py_TYPE(object);
    hanneddois_streams_free(&self->streams);
    PyMem_Free(self->rows);
    ((freefunc)PyType_GetSlot(type, Py_tp_free))(object);
    Py_DECREF(type);
}

/* The number of a stream that was added, or the error. */
static PyObject *added_stream(hanneddois_status status, size_t number)
{
    hanneddois_error error = {status, 0, 0, 0, 0, 0};
    if (status == HANNEDDOIS_OK)
        return PyLong_FromSize_t(number);
    raise_error(&error);
    return NULL;
}

static PyObject *streams_open(PyObject *object, PyObject *Py_UNUSED(ignored))
{
    size_t number;
    hanneddois_status status = hanneddois_stream_new(&((StreamSet *)object)->streams, &number);
    return added_stream(status, number);
}

static int is_number(PyObject *object, size_t *number)
{
    *number = PyLong_AsSize_t(object);
    return !PyErr_Occurred();
}

static PyObject *streams_copy(PyObject *object, PyObject *from)
{
    size_t source, number;
    if (!is_number(from, &source))
        return NULL;
    hanneddois_status status = hanneddois_stream_clone(&((StreamSet *)object)->streams, source, &number);
    return added_stream(status, number);
}

static PyObject *streams_remove(PyObject *object, PyObject *of)
{
    size_t number;
    if (!is_number(of, &number))
        return NULL;
    hanneddois_stream_free(&((StreamSet *)object)->streams, number);
    return new_reference(Py_None);
}

static PyObject *streams_reset(PyObject *object, PyObject *of)
{
    size_t number;
    if (!is_number(of, &number))
        return NULL;
    hanneddois_stream_reset(&((StreamSet *)object)->streams, number);
    return new_reference(Py_None);
}

/* Appends the first rows to a list, as pairs of pattern and end. */
static int append_pairs(PyObject *pairs, const hanneddois_end *rows, size_t count)
{
    for (size_t i = 0; i < count; i++) {
        PyObject *pair = Py_BuildValue("(nn)", (Py_ssize_t)rows[i].pattern, (Py_ssize_t)rows[i].end);
        int result = pair ? PyList_Append(pairs, pair) : -1;
        Py_XDECREF(pair);
        if (result < 0)
            return -1;
    }
    return 0;
}

/* Feeds what is left of a piece, as far as the rows have room. */
static hanneddois_status feed_rest(StreamSet *self, size_t number, const Haystack *piece, size_t done, size_t *taken, size_t *count,
                                   hanneddois_error *error)
{
    hanneddois_status status;
    if (!piece->may_unlock)
        return hanneddois_stream_feed(&self->streams, number, piece->bytes + done, piece->length - done, self->rows, self->row_count, taken, count,
                                      error);
    Py_BEGIN_ALLOW_THREADS
    status = hanneddois_stream_feed(&self->streams, number, piece->bytes + done, piece->length - done, self->rows, self->row_count, taken, count,
                                    error);
    Py_END_ALLOW_THREADS
    return status;
}

/* The pair of how many bytes were read, and the error or None. */
static PyObject *feed_whole(StreamSet *self, size_t number, const Haystack *piece, PyObject *pairs)
{
    size_t done = 0, taken, count;
    hanneddois_error error = {HANNEDDOIS_OK, 0, 0, 0, 0, 0};
    while (done < piece->length && error.status == HANNEDDOIS_OK) {
        feed_rest(self, number, piece, done, &taken, &count, &error);
        done += taken;
        if (append_pairs(pairs, self->rows, count) < 0)
            return NULL;
    }
    PyObject *why = error.status == HANNEDDOIS_OK ? new_reference(Py_None) : make_error(&error);
    return why ? Py_BuildValue("(nN)", (Py_ssize_t)done, why) : NULL;
}

static PyObject *streams_feed(PyObject *object, PyObject *args)
{
    PyObject *of, *bytes, *pairs;
    size_t number;
    Haystack piece;
    if (!PyArg_ParseTuple(args, "OOO!:feed", &of, &bytes, &PyList_Type, &pairs) || !is_number(of, &number))
        return NULL;
    if (PyUnicode_Check(bytes)) {
        PyErr_SetString(PyExc_TypeError, "a stream is fed bytes-like objects, not a str: encode it");
        return NULL;
    }
    if (open_haystack(&piece, bytes) < 0)
        return NULL;
    PyObject *result = feed_whole((StreamSet *)object, number, &piece, pairs);
    close_haystack(&piece);
    return result;
}

static PyObject *streams_close(PyObject *object, PyObject *of)
{
    StreamSet *self = (StreamSet *)object;
    size_t number, count;
    hanneddois_error error;
    if (!is_number(of, &number))
        return NULL;
    if (hanneddois_stream_close(&self->streams, number, self->rows, self->row_count, &count, &error) != HANNEDDOIS_OK) {
        raise_error(&error);
        return NULL;
    }
    PyObject *pairs = PyList_New(0);
    if (pairs && append_pairs(pairs, self->rows, count) < 0)
        Py_CLEAR(pairs);
    return pairs;
}

static PyMethodDef streams_methods[] = {
    {"open", streams_open, METH_NOARGS, NULL},
    {"copy", streams_copy, METH_O, NULL},
    {"remove", streams_remove, METH_O, NULL},
    {"reset", streams_reset, METH_O, NULL},
    {"feed", streams_feed, METH_VARARGS, NULL},
    {"close", streams_close, METH_O, NULL},
    {NULL, NULL, 0, NULL},
};

static PyType_Slot streams_slots[] = {
    {Py_tp_doc, "The streams of a regex. Stream is the class to use."},
    {Py_tp_new, streams_new},
    {Py_tp_dealloc, streams_dealloc},
    {Py_tp_methods, streams_methods},
    {0, NULL},
};

static PyType_Spec streams_spec = {"hanneddois._extension.StreamSet", sizeof(StreamSet), 0, Py_TPFLAGS_DEFAULT, streams_slots};

static PyObject *version(PyObject *Py_UNUSED(module), PyObject *Py_UNUSED(ignored))
{
    return PyLong_FromUnsignedLong(hanneddois_version());
}

static PyMethodDef module_methods[] = {
    {"version", version, METH_NOARGS,
     "version($module, /)\n--\n\nThe version of the library: 10000 times the major number, 100 times the minor one, and the patch."},
    {NULL, NULL, 0, NULL},
};

static struct PyModuleDef module_definition = {PyModuleDef_HEAD_INIT, "hanneddois._extension", NULL, -1, module_methods, NULL, NULL, NULL, NULL};

static PyTypeObject *add_type(PyObject *module, const char *name, PyType_Spec *spec)
{
    PyObject *type = PyType_FromSpec(spec);
    if (!type || PyObject_SetAttrString(module, name, type) < 0)
        Py_CLEAR(type);
    return (PyTypeObject *)type;
}

static int import_common(void)
{
    PyObject *common = PyImport_ImportModule("hanneddois._common");
    error_type = common ? PyObject_GetAttrString(common, "Error") : NULL;
    count_characters = error_type ? PyObject_GetAttrString(common, "count_characters") : NULL;
    Py_XDECREF(common);
    return count_characters ? 0 : -1;
}

PyMODINIT_FUNC PyInit__extension(void)
{
    if (hanneddois_version() / 100 != HANNEDDOIS_VERSION / 100) {
        PyErr_Format(PyExc_ImportError, "libhanneddois has version %u, and this module is for %d", (unsigned)hanneddois_version(), HANNEDDOIS_VERSION);
        return NULL;
    }
    PyObject *module = PyModule_Create(&module_definition);
    if (!module)
        return NULL;
    matcher_type = add_type(module, "Matcher", &matcher_spec);
    match_type = add_type(module, "Match", &match_spec);
    iterator_type = add_type(module, "MatchIterator", &iterator_spec);
    PyTypeObject *streams_type = add_type(module, "StreamSet", &streams_spec);
    if (!matcher_type || !match_type || !iterator_type || !streams_type || import_common() < 0 || find_may_refill() < 0)
        Py_CLEAR(module);
    Py_XDECREF(streams_type);
    return module;
}
