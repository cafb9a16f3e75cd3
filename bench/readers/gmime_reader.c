/* gmime_reader.c: times reading mails by GMime 3, as README.md says. */
#include "bench.h"

#include <gmime/gmime.h>

/* A parser of these bytes, which GMime copies: a stream in memory owns its bytes. */
static GMimeParser *parser_of(const char *bytes, size_t length)
{
    GByteArray *array = g_byte_array_new();
    GMimeStream *stream;
    GMimeParser *parser;
    g_byte_array_append(array, (const guint8 *)bytes, length);
    stream = g_mime_stream_mem_new_with_byte_array(array);
    parser = g_mime_parser_new_with_stream(stream);
    g_object_unref(stream);
    return parser;
}

/* Reads the values of headers as text. */
static void read_values(GMimeObject *object)
{
    GMimeHeaderList *headers = g_mime_object_get_header_list(object);
    for (int at = 0; at < g_mime_header_list_get_count(headers); at++)
        g_mime_header_get_value(g_mime_header_list_get_header_at(headers, at));
}

/* Reads the values and the decoded body of a part, and adds how many bytes the body has. */
static void read_part(GMimeObject *parent, GMimeObject *part, gpointer made)
{
    (void)parent;
    read_values(part);
    if (GMIME_IS_PART(part) && g_mime_part_get_content(GMIME_PART(part))) {
        GMimeStream *body = g_mime_stream_mem_new();
        g_mime_data_wrapper_write_to_stream(g_mime_part_get_content(GMIME_PART(part)), body);
        *(size_t *)made += g_mime_stream_length(body);
        g_object_unref(body);
    }
}

/* Reads all of a mail. Returns how many bytes its bodies have. */
static size_t read_all(GMimeMessage *mail)
{
    size_t made = 0;
    read_values(GMIME_OBJECT(mail));
    g_mime_message_foreach(mail, read_part, &made);
    return made;
}

static size_t length_of(const char *text)
{
    return text ? strlen(text) : 0;
}

/* Reads the names and addresses of a list. Returns how many bytes they have. */
static size_t read_addresses(InternetAddressList *list)
{
    size_t made = 0;
    for (int at = 0; list && at < internet_address_list_length(list); at++) {
        InternetAddress *one = internet_address_list_get_address(list, at);
        made += length_of(internet_address_get_name(one));
        if (INTERNET_ADDRESS_IS_MAILBOX(one))
            made += length_of(internet_address_mailbox_get_addr(INTERNET_ADDRESS_MAILBOX(one)));
        else
            made += read_addresses(internet_address_group_get_members(INTERNET_ADDRESS_GROUP(one)));
    }
    return made;
}

/* Reads the name of the file of a part, and adds how many bytes it has. */
static void read_name(GMimeObject *parent, GMimeObject *part, gpointer made)
{
    (void)parent;
    if (GMIME_IS_PART(part))
        *(size_t *)made += length_of(g_mime_part_get_filename(GMIME_PART(part)));
}

/* Reads five values of a mail and the names of its files. Returns how many bytes they have; the date counts as one. */
static size_t read_values_of(GMimeMessage *mail)
{
    size_t made = length_of(g_mime_message_get_subject(mail)) + length_of(g_mime_message_get_message_id(mail));
    made += read_addresses(g_mime_message_get_from(mail)) + read_addresses(g_mime_message_get_to(mail));
    made += g_mime_message_get_date(mail) != NULL;
    g_mime_message_foreach(mail, read_name, &made);
    return made;
}

static size_t read_nothing(GMimeMessage *mail)
{
    (void)mail;
    return 1;
}

/* Reads the mails of a stream, and of each what is asked for. */
static size_t read_mails(const char *bytes, size_t length, GMimeFormat format, size_t (*read)(GMimeMessage *mail))
{
    GMimeParser *parser = parser_of(bytes, length);
    size_t made = 0;
    g_mime_parser_set_format(parser, format);
    do {
        GMimeMessage *mail = g_mime_parser_construct_message(parser, NULL);
        if (!mail)
            break;
        made += read(mail);
        g_object_unref(mail);
    } while (format == GMIME_FORMAT_MBOX && !g_mime_parser_eos(parser));
    g_object_unref(parser);
    return made;
}

static size_t parse(const char *bytes, size_t length)
{
    return read_mails(bytes, length, GMIME_FORMAT_MESSAGE, read_nothing);
}

static size_t all(const char *bytes, size_t length)
{
    return read_mails(bytes, length, GMIME_FORMAT_MESSAGE, read_all);
}

static size_t mailbox_parse(const char *bytes, size_t length)
{
    return read_mails(bytes, length, GMIME_FORMAT_MBOX, read_nothing);
}

static size_t mailbox_all(const char *bytes, size_t length)
{
    return read_mails(bytes, length, GMIME_FORMAT_MBOX, read_all);
}

static size_t mailbox_values(const char *bytes, size_t length)
{
    return read_mails(bytes, length, GMIME_FORMAT_MBOX, read_values_of);
}

static const struct work works[] = {
    { "parse", parse },
    { "all", all },
    { "mailbox-parse", mailbox_parse },
    { "mailbox-all", mailbox_all },
    { "mailbox-values", mailbox_values },
    { NULL, NULL },
};

int main(int count, char **arguments)
{
    g_mime_init();
    return bench(count, arguments, works);
}
