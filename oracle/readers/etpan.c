/* Dumps mails as libetpan reads them. */
#include <libetpan/libetpan.h>
#include "dump.h"

static const char *const discrete[] = {"", "text", "image", "audio", "video", "application"};
static const char *const composite[] = {"", "message", "multipart"};

static const char *type_of(struct mailmime_content *content) {
    static char type[1024];
    if (!content) return "text/plain";
    const char *name;
    if (content->ct_type->tp_type == MAILMIME_TYPE_DISCRETE_TYPE) {
        struct mailmime_discrete_type *kind = content->ct_type->tp_data.tp_discrete_type;
        name = kind->dt_type == MAILMIME_DISCRETE_TYPE_EXTENSION ? kind->dt_extension : discrete[kind->dt_type];
    } else {
        struct mailmime_composite_type *kind = content->ct_type->tp_data.tp_composite_type;
        name = kind->ct_type == MAILMIME_COMPOSITE_TYPE_EXTENSION ? kind->ct_token : composite[kind->ct_type];
    }
    snprintf(type, sizeof type, "%s/%s", name, content->ct_subtype);
    return type;
}

static void dump_bytes(struct mailmime_data *body) {
    char *bytes = NULL;
    size_t at = 0, length = 0;
    if (body) mailmime_part_parse(body->dt_data.dt_text.dt_data, body->dt_data.dt_text.dt_length, &at, body->dt_encoding, &bytes, &length);
    dump_hex(bytes, length);
    if (bytes) mailmime_decoded_part_free(bytes);
}

static void dump(struct mailmime *part, int depth) {
    struct mailmime_single_fields fields;
    mailmime_single_fields_init(&fields, part->mm_mime_fields, part->mm_content_type);
    dump_part(depth, type_of(part->mm_content_type), fields.fld_disposition_filename ? fields.fld_disposition_filename : fields.fld_content_name);
    if (part->mm_type == MAILMIME_SINGLE) dump_bytes(part->mm_data.mm_single);
    puts(part->mm_type == MAILMIME_SINGLE ? "" : " *");
    if (part->mm_type == MAILMIME_MULTIPLE) {
        for (clistiter *at = clist_begin(part->mm_data.mm_multipart.mm_mp_list); at; at = clist_next(at)) dump(clist_content(at), depth + 1);
    } else if (part->mm_type == MAILMIME_MESSAGE && part->mm_data.mm_message.mm_msg_mime) {
        dump(part->mm_data.mm_message.mm_msg_mime, depth + 1);
    }
}

int main(void) {
    size_t length;
    for (char *data; (data = next_file(&length)); free(data)) {
        size_t at = 0, start = 0;
        struct mailmime *mail = NULL;
        struct mailimf_single_fields fields = {0};
        if (mailmime_parse(data, length, &at, &mail) == MAILIMF_NO_ERROR && mail->mm_data.mm_message.mm_msg_mime) dump(mail->mm_data.mm_message.mm_msg_mime, 0);
        if (mail && mail->mm_data.mm_message.mm_fields) mailimf_single_fields_init(&fields, mail->mm_data.mm_message.mm_fields);
        char *value = fields.fld_subject ? fields.fld_subject->sbj_value : NULL, *subject = NULL;
        if (value) mailmime_encoded_phrase_parse("utf-8", value, strlen(value), &start, "utf-8", &subject);
        clistiter *first = fields.fld_from ? clist_begin(fields.fld_from->frm_mb_list->mb_list) : NULL;
        dump_end(subject, first ? ((struct mailimf_mailbox *)clist_content(first))->mb_addr_spec : NULL);
        free(subject);
        if (mail) mailmime_free(mail);
    }
}
