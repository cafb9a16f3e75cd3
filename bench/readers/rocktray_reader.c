/* rocktray_reader.c: times reading the mails of a mailbox by the C library, as README.md says. */
#include "bench.h"

#include <rocktray.h>
#include <strings.h>

#define MANY 100000

static struct rocktray_part parts[MANY];
static struct rocktray_header_record headers[MANY];
static struct rocktray_address addresses[MANY];
static char text[1 << 20];

/* a mail that was read */
struct mail {
    const char *bytes;
    size_t part_count, header_count;
};

/* bytes of a mail */
struct range {
    const char *at;
    size_t length;
};

/* Reads the records of a mail. Returns the code. */
static uint32_t read_records(struct mail *mail, size_t length)
{
    return rocktray_parts(mail->bytes, length, SIZE_MAX, parts, MANY, &mail->part_count, headers, MANY, &mail->header_count);
}

/* The raw value of the first header of a part with this name; empty if it has none. */
static struct range first(const struct mail *mail, const struct rocktray_part *part, const char *name)
{
    const struct rocktray_header_record *header = headers + part->first_header, *end = header + part->header_count;
    size_t length = strlen(name);
    struct range range = { NULL, 0 };
    for (; header < end; header++) {
        if (header->key_end - header->start == length && !strncasecmp(mail->bytes + header->start, name, length)) {
            range.at = mail->bytes + header->value_start;
            range.length = header->value_end - header->value_start;
            return range;
        }
    }
    return range;
}

/* Writes the value of the first header of the mail with this name to `text`. Returns its length. */
static size_t value_of(const struct mail *mail, const char *name)
{
    struct range raw = first(mail, parts, name);
    size_t length = 0;
    return rocktray_value(raw.at, raw.length, text, sizeof text, &length) == ROCKTRAY_DONE ? length : 0;
}

/* Reads the addresses of a header. Returns how many bytes they have. */
static size_t addresses_of(const struct mail *mail, const char *name)
{
    struct range raw = first(mail, parts, name);
    size_t count, length = 0;
    uint32_t code = rocktray_addresses(raw.at, raw.length, addresses, MANY, &count, text, sizeof text, &length);
    return code == ROCKTRAY_DONE ? length : 0;
}

/* Reads the time of the mail. Returns whether it has one. */
static size_t date_of(const struct mail *mail)
{
    int64_t seconds;
    bool is_zone_known;
    return rocktray_date(text, value_of(mail, "Date"), &seconds, &is_zone_known) == ROCKTRAY_DONE;
}

/* Reads the message id. Returns its length. */
static size_t id_of(const struct mail *mail)
{
    char id[1000];
    size_t length = 0;
    uint32_t code = rocktray_ids(text, value_of(mail, "Message-ID"), false, id, sizeof id, &length);
    return code == ROCKTRAY_DONE ? length : 0;
}

/* Reads the name of the file of a part. Returns its length. */
static size_t name_of(const struct mail *mail, const struct rocktray_part *part)
{
    struct range disposition = first(mail, part, "Content-Disposition"), type = first(mail, part, "Content-Type");
    size_t length = 0;
    uint32_t code = rocktray_file_name(disposition.at, disposition.length, type.at, type.length, text, sizeof text, &length);
    return code == ROCKTRAY_DONE ? length : 0;
}

static size_t parse(const char *bytes, size_t length)
{
    struct mail mail = { bytes, 0, 0 };
    return read_records(&mail, length) == ROCKTRAY_DONE;
}

/* Reads five values of a mail and the names of its files. Returns how many bytes they have; the date counts as one. */
static size_t values(const char *bytes, size_t length)
{
    struct mail mail = { bytes, 0, 0 };
    size_t made, k;
    if (read_records(&mail, length) != ROCKTRAY_DONE)
        return 0;
    made = value_of(&mail, "Subject") + addresses_of(&mail, "From") + addresses_of(&mail, "To") + date_of(&mail) + id_of(&mail);
    for (k = 0; k < mail.part_count; k++)
        if (parts[k].flags & ROCKTRAY_IS_LEAF)
            made += name_of(&mail, &parts[k]);
    return made;
}

/* Reads each mail of a mailbox. */
static size_t read_mailbox(const char *bytes, size_t length, reading read)
{
    size_t made = 0, start, end, next;
    while (rocktray_next_mail(bytes, length, false, &start, &end, &next) == ROCKTRAY_DONE) {
        made += read(bytes + start, end - start);
        bytes += next;
        length -= next;
    }
    return made;
}

static size_t mailbox_parse(const char *bytes, size_t length)
{
    return read_mailbox(bytes, length, parse);
}

static size_t mailbox_values(const char *bytes, size_t length)
{
    return read_mailbox(bytes, length, values);
}

/* Reads the records of each mail of a mailbox; its mails are found in the first round. */
static size_t mails_parse(const char *bytes, size_t length)
{
    static size_t count, at, places[MANY][2];
    size_t made = 0, start, end, next, k;
    while (count < MANY && rocktray_next_mail(bytes + at, length - at, false, &start, &end, &next) == ROCKTRAY_DONE) {
        places[count][0] = at + start;
        places[count++][1] = end - start;
        at += next;
    }
    for (k = 0; k < count; k++)
        made += parse(bytes + places[k][0], places[k][1]);
    return made;
}

static const struct work works[] = {
    { "parse", parse },
    { "mailbox-parse", mailbox_parse },
    { "mailbox-values", mailbox_values },
    { "mails-parse", mails_parse },
    { NULL, NULL },
};

int main(int count, char **arguments)
{
    return bench(count, arguments, works);
}
