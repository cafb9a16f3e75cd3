/* The records of a mail, and values that are decoded with them. Nothing here needs Python's lock. */
#include "engine.h"

#include <stdlib.h>
#include <string.h>

/* the numbers of records for which there is space at first: on the stack these, and more for a long mail */
#define FEW_PARTS 32
#define FEW_HEADERS 200
#define MOST_PARTS 2000
#define MOST_HEADERS 10000
/* the least numbers of bytes that a part and a header usually have */
#define BYTES_OF_PART 500
#define BYTES_OF_HEADER 100
/* the number of addresses that are decoded ahead, and the length of the text of a date */
#define FEW_ADDRESSES 40
#define DATE_LENGTH 256

const struct name value_names[VALUES] = {
    { "subject", 7 }, { "date", 4 }, { "from", 4 },   { "to", 2 },
    { "cc", 2 },      { "bcc", 3 },  { "sender", 6 }, { "reply-to", 8 },
};

/* Names of headers. */

static uint8_t lower(uint8_t byte)
{
    return byte >= 'A' && byte <= 'Z' ? byte + ('a' - 'A') : byte;
}

bool is_named(const uint8_t *mail, const struct rocktray_header_record *header, const uint8_t *name, size_t length)
{
    const uint8_t *key = mail + header->start;
    size_t k = 0;
    if (header->key_end - header->start != length)
        return false;
    while (k < length && lower(key[k]) == lower(name[k]))
        k++;
    return k == length;
}

/* Values that are decoded ahead. */

/* what is decoded of a mail, before there is a block for it */
struct decoded {
    struct ahead ahead;
    struct rocktray_address addresses[FEW_ADDRESSES];
    size_t length;
    char strings[SHORT];
};

/* The first header of a mail with the name of a value, from `header` on, or from the first if that is NULL. NULL if none
 * has it. */
static const struct rocktray_header_record *header_of_value(const struct records *records, enum value value,
                                                            const struct rocktray_header_record *header)
{
    const struct rocktray_header_record *end = records->headers + records->parts->header_count;
    const struct name *name = &value_names[value];
    for (header = header ? header : records->headers; header < end; header++)
        if (is_named(records->at, header, (const uint8_t *)name->at, name->length))
            return header;
    return NULL;
}

uint32_t read_date(const uint8_t *raw, size_t length, struct date *date)
{
    char text[DATE_LENGTH];
    size_t needed;
    uint32_t code = rocktray_value(raw, length, text, sizeof text, &needed);
    if (code == ROCKTRAY_DONE)
        code = rocktray_date_and_offset(text, needed, &date->seconds, &date->offset, &date->is_zone_known);
    return code;
}

/* Decode a value. They return whether it is known then: there was space for it and memory. */

static bool decode_subject(const struct records *records, struct decoded *to)
{
    const struct rocktray_header_record *header = header_of_value(records, SUBJECT, NULL);
    size_t needed;
    to->ahead.has_subject = header != NULL;
    if (!header)
        return true;
    if (rocktray_value(records->at + header->value_start, header->value_end - header->value_start, to->strings + to->length,
                       sizeof to->strings - to->length, &needed) != ROCKTRAY_DONE)
        return false;
    to->ahead.subject_start = to->length;
    to->ahead.subject_end = to->length += needed;
    return true;
}

static bool decode_date(const struct records *records, struct decoded *to)
{
    const struct rocktray_header_record *header = header_of_value(records, DATE, NULL);
    to->ahead.date.code = ROCKTRAY_ABSENT;
    if (header)
        to->ahead.date.code = read_date(records->at + header->value_start, header->value_end - header->value_start,
                                        &to->ahead.date);
    return to->ahead.date.code != ROCKTRAY_TOO_SHORT && to->ahead.date.code != ROCKTRAY_NO_MEMORY;
}

static bool decode_addresses(const struct records *records, enum value value, struct decoded *to)
{
    const struct rocktray_header_record *header = NULL;
    to->ahead.first[value] = to->ahead.address_count;
    while ((header = header_of_value(records, value, header ? header + 1 : NULL))) {
        struct rocktray_address *addresses = to->addresses + to->ahead.address_count;
        size_t count, needed, k;
        if (rocktray_addresses(records->at + header->value_start, header->value_end - header->value_start, addresses,
                               FEW_ADDRESSES - to->ahead.address_count, &count, to->strings + to->length,
                               sizeof to->strings - to->length, &needed) != ROCKTRAY_DONE)
            return false;
        for (k = 0; k < count; k++) {
            addresses[k].name_start += to->length;
            addresses[k].name_end += to->length;
            addresses[k].address_start += to->length;
            addresses[k].address_end += to->length;
        }
        to->ahead.address_count += count;
        to->length += needed;
    }
    to->ahead.last[value] = to->ahead.address_count;
    return true;
}

/* Decodes the values that are wanted, while there is space for them. */
static void decode(const struct records *records, struct decoded *to)
{
    int value;
    to->ahead = (struct ahead){ .known = 0 };
    to->length = 0;
    for (value = 0; value < VALUES; value++) {
        bool is_known = false;
        if (records->wanted & 1u << value)
            is_known = value == SUBJECT ? decode_subject(records, to)
                       : value == DATE  ? decode_date(records, to)
                                        : decode_addresses(records, value, to);
        if (is_known)
            to->ahead.known |= 1u << value;
    }
}

/* Reading. */

/* the records of most mails, on the stack */
struct few {
    struct rocktray_part parts[FEW_PARTS];
    struct rocktray_header_record headers[FEW_HEADERS];
};

static size_t between(size_t least, size_t number, size_t most)
{
    return number < least ? least : number > most ? most : number;
}

static size_t size_of(size_t part_count, size_t header_count)
{
    return part_count * sizeof(struct rocktray_part) + header_count * sizeof(struct rocktray_header_record);
}

const struct rocktray_address *addresses_in(const struct ahead *ahead)
{
    return (const struct rocktray_address *)(ahead + 1);
}

const char *strings_in(const struct ahead *ahead)
{
    return (const char *)(addresses_in(ahead) + ahead->address_count);
}

/* Whether the space of records has these bytes left. */
static bool fits(const struct records *records, size_t size)
{
    return records->space && size <= SPACE - records->space->used;
}

/* The bytes that are left of a space. */
static void *rest_of(struct space *space)
{
    return (char *)space->at + space->used;
}

/* A block for records: in their space, or allocated if there is none or it is too short. NULL without memory. */
static void *take_block(struct records *records, size_t size)
{
    size_t whole = (size + sizeof(uint64_t) - 1) / sizeof(uint64_t) * sizeof(uint64_t);
    void *block;
    if (!fits(records, whole)) {
        records->space = NULL;
        return malloc(size);
    }
    block = rest_of(records->space);
    records->space->used += whole;
    records->size = size;
    return block;
}

void free_records(const struct records *records)
{
    if (!records->space)
        free(records->parts);
}

int own_records(struct records *records)
{
    char *block;
    if (!records->space)
        return 0;
    if (!(block = malloc(records->size)))
        return -1;
    if (records->ahead)
        records->ahead = (struct ahead *)(block + ((char *)records->ahead - (char *)records->parts));
    records->parts = memcpy(block, records->parts, records->size);
    records->headers = (struct rocktray_header_record *)(records->parts + records->part_count);
    records->space = NULL;
    return 0;
}

/* Makes the block of the records, which were read into it, as short as they are. Returns the code. */
static uint32_t shorten(struct records *records)
{
    struct rocktray_part *parts;
    memmove(records->parts + records->part_count, records->headers, records->header_count * sizeof *records->headers);
    parts = realloc(records->parts, size_of(records->part_count, records->header_count));
    records->parts = parts ? parts : records->parts;
    records->headers = (struct rocktray_header_record *)(records->parts + records->part_count);
    records->ahead = NULL;
    records->space = NULL;
    return ROCKTRAY_DONE;
}

/* The size of values that were decoded. */
static size_t size_of_decoded(const struct decoded *decoded)
{
    return sizeof decoded->ahead + decoded->ahead.address_count * sizeof *decoded->addresses + decoded->length;
}

/* Copies the records to a block of their own, with these decoded values unless they are NULL. They may have been read into
 * the rest of their space, where the block is then. Returns the code. */
static uint32_t copy(struct records *records, const struct decoded *decoded)
{
    size_t size = size_of(records->part_count, records->header_count);
    struct rocktray_part *parts = take_block(records, size + (decoded ? size_of_decoded(decoded) : 0));
    struct rocktray_address *addresses;
    if (!parts)
        return ROCKTRAY_NO_MEMORY;
    records->parts = memmove(parts, records->parts, records->part_count * sizeof *parts);
    records->headers = memmove(parts + records->part_count, records->headers, records->header_count * sizeof *records->headers);
    records->ahead = NULL;
    if (!decoded)
        return ROCKTRAY_DONE;
    records->ahead = memcpy((char *)parts + size, &decoded->ahead, sizeof decoded->ahead);
    addresses = memcpy(records->ahead + 1, decoded->addresses, decoded->ahead.address_count * sizeof *addresses);
    memcpy(addresses + decoded->ahead.address_count, decoded->strings, decoded->length);
    return ROCKTRAY_DONE;
}

static uint32_t copy_decoded(struct records *records)
{
    struct decoded decoded;
    decode(records, &decoded);
    return copy(records, &decoded);
}

/* Copies the records and the values that are wanted to a block of their own. Returns the code. */
static uint32_t copy_all(struct records *records)
{
    return records->wanted ? copy_decoded(records) : copy(records, NULL);
}

/* The same for records in a block that was allocated, which is freed. */
static uint32_t copy_few(struct records *records)
{
    struct rocktray_part *block = records->parts;
    uint32_t code = copy_all(records);
    free(block);
    return code;
}

/* Whether there are as few records as on the stack. */
static bool is_few(const struct records *records)
{
    return records->part_count <= FEW_PARTS && records->header_count <= FEW_HEADERS;
}

/* Reads the mail into space for these numbers of records. Returns the code. */
static uint32_t read_into(struct records *records, size_t part_capacity, size_t header_capacity)
{
    return rocktray_parts(records->at, records->length, records->limit, records->parts, part_capacity, &records->part_count,
                          records->headers, header_capacity, &records->header_count);
}

/* Reads a mail into a block with space for these numbers of records, or into the rest of its space. Returns the code. */
static uint32_t read_long(struct records *records, size_t part_capacity, size_t header_capacity)
{
    uint32_t code = ROCKTRAY_NO_MEMORY;
    int tries;
    for (tries = 0; tries < 2; tries++) {
        size_t size = size_of(part_capacity, header_capacity);
        bool is_allocated = !fits(records, size);
        if (!(records->parts = is_allocated ? malloc(size) : rest_of(records->space)))
            return ROCKTRAY_NO_MEMORY;
        records->headers = (struct rocktray_header_record *)(records->parts + part_capacity);
        code = read_into(records, part_capacity, header_capacity);
        if (code == ROCKTRAY_DONE && !is_allocated)
            return is_few(records) ? copy_all(records) : copy(records, NULL);
        if (code == ROCKTRAY_DONE)
            return is_few(records) ? copy_few(records) : shorten(records);
        if (is_allocated)
            free(records->parts);
        if (code != ROCKTRAY_TOO_SHORT)
            return code;
        part_capacity = records->part_count;
        header_capacity = records->header_count;
    }
    /* bytes that change meanwhile may have more records the second time */
    return ROCKTRAY_NO_MEMORY;
}

uint32_t read_records(struct records *records)
{
    size_t part_capacity = between(FEW_PARTS, records->length / BYTES_OF_PART, MOST_PARTS);
    size_t header_capacity = between(FEW_HEADERS, records->length / BYTES_OF_HEADER, MOST_HEADERS);
    struct few few;
    uint32_t code;
    if (part_capacity > FEW_PARTS || header_capacity > FEW_HEADERS)
        return read_long(records, part_capacity, header_capacity);
    records->parts = few.parts;
    records->headers = few.headers;
    code = read_into(records, FEW_PARTS, FEW_HEADERS);
    if (code == ROCKTRAY_TOO_SHORT)
        return read_long(records, records->part_count, records->header_count);
    return code == ROCKTRAY_DONE ? copy_all(records) : code;
}

void move(const struct records *records, uint64_t start)
{
    size_t k;
    for (k = 0; start && k < records->part_count; k++) {
        struct rocktray_part *part = &records->parts[k];
        part->start += start;
        part->end += start;
        part->body_start += start;
        part->body_end += start;
    }
    for (k = 0; start && k < records->header_count; k++) {
        struct rocktray_header_record *header = &records->headers[k];
        header->start += start;
        header->key_end += start;
        header->value_start += start;
        header->value_end += start;
        header->end += start;
    }
}
