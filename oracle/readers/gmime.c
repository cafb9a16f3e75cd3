/* Dumps mails as GMime reads them. */
#include <gmime/gmime.h>
#include "dump.h"

static const char *file_name(GMimeObject *object) {
    const char *name = g_mime_object_get_content_disposition_parameter(object, "filename");
    return name ? name : g_mime_object_get_content_type_parameter(object, "name");
}

static void dump_bytes(GMimePart *part) {
    GMimeStream *stream = g_mime_stream_mem_new();
    if (g_mime_part_get_content(part)) g_mime_data_wrapper_write_to_stream(g_mime_part_get_content(part), stream);
    GByteArray *bytes = g_mime_stream_mem_get_byte_array(GMIME_STREAM_MEM(stream));
    dump_hex((char *)bytes->data, bytes->len);
    g_object_unref(stream);
}

static void dump(GMimeObject *object, int depth) {
    char *type = g_mime_content_type_get_mime_type(g_mime_object_get_content_type(object));
    dump_part(depth, type, file_name(object));
    g_free(type);
    if (GMIME_IS_PART(object)) dump_bytes(GMIME_PART(object));
    puts(GMIME_IS_PART(object) ? "" : " *");
    if (GMIME_IS_MULTIPART(object)) {
        int count = g_mime_multipart_get_count(GMIME_MULTIPART(object));
        for (int at = 0; at < count; at++) dump(g_mime_multipart_get_part(GMIME_MULTIPART(object), at), depth + 1);
    } else if (GMIME_IS_MESSAGE_PART(object)) {
        GMimeMessage *inner = g_mime_message_part_get_message(GMIME_MESSAGE_PART(object));
        if (inner && inner->mime_part) dump(inner->mime_part, depth + 1);
    }
}

static const char *sender(InternetAddressList *list) {
    for (int at = 0; list && at < internet_address_list_length(list); at++) {
        InternetAddress *address = internet_address_list_get_address(list, at);
        if (INTERNET_ADDRESS_IS_MAILBOX(address)) return internet_address_mailbox_get_idn_addr(INTERNET_ADDRESS_MAILBOX(address));
    }
    return NULL;
}

int main(void) {
    size_t length;
    g_mime_init();
    for (char *data; (data = next_file(&length)); free(data)) {
        GMimeStream *stream = g_mime_stream_mem_new_with_buffer(data, length);
        GMimeParser *parser = g_mime_parser_new_with_stream(stream);
        GMimeMessage *mail = g_mime_parser_construct_message(parser, NULL);
        if (mail && mail->mime_part) dump(mail->mime_part, 0);
        dump_end(mail ? g_mime_message_get_subject(mail) : NULL, mail ? sender(g_mime_message_get_from(mail)) : NULL);
        if (mail) g_object_unref(mail);
        g_object_unref(parser);
        g_object_unref(stream);
    }
}
