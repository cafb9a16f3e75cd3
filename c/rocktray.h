/* rocktray.h: reads mail (RFC 5322, MIME), proved. Link with -lrocktray.
 *
 * A call gets its input as a pointer and a length, and an output buffer as a pointer and a capacity. It writes the
 * result to the front of the buffer and its length to *needed. It writes nothing after the result, not even a NUL. It
 * returns a code:
 *
 *   ROCKTRAY_DONE       the result is in the buffer, and *needed is its length
 *   ROCKTRAY_TOO_SHORT  a buffer is too short: *needed is the capacity that it must have
 *   ROCKTRAY_NO_MEMORY  out of memory
 *   ROCKTRAY_ABSENT     there is no such header, name, id or report, or no further mail
 *   16 and greater      the input is refused, and the code is the reason: rocktray_reason has its text
 *
 * After every code but ROCKTRAY_DONE the buffer is unchanged, byte for byte. *needed is set after ROCKTRAY_DONE and
 * ROCKTRAY_TOO_SHORT, and unchanged after any other code. A call with two buffers has two capacities and two lengths:
 * if one buffer is too short, both are unchanged, and both lengths are set.
 *
 * Records. `rocktray_parts` reads a mail once and fills records with offsets into its bytes. The other calls then get
 * the bytes at these offsets: the raw value of a header, or a body. They do not read the mail again:
 *
 *   rocktray_parts(mail, length, SIZE_MAX, parts, 100, &part_count, headers, 1000, &header_count);
 *   rocktray_body(parts[1].encoding, mail + parts[1].body_start, parts[1].body_end - parts[1].body_start, ..);
 *
 * Memory. Calls allocate with malloc and realloc, and free everything before they return, whatever they return. The
 * library keeps no memory, no state and no pointer, so nothing has to be opened, closed or freed.
 *
 * Threads. Any calls may be made from any threads at once, without a lock, as long as no two of them write to the same
 * memory and nobody changes the memory of an input meanwhile. Call nothing from a signal handler.
 *
 * Pointers. If a length or a capacity is 0, its pointer may be null and is not dereferenced. Any other pointer must be
 * valid for that many bytes. The buffer must not overlap the input, and *needed must overlap neither. Inputs may
 * contain any bytes, and need not end in NUL.
 *
 * Time. A call takes time linear in the length of its input, times the depth of nested parts.
 *
 * Stack. A call that reads a whole mail or part needs up to 56 KB of stack, if its parts are 100 levels deep.
 * rocktray_json and rocktray_findings also read the mails that a mail forwards, each within the call that reads the one
 * before, and need up to 104 KB for 100 mails that are forwarded like this. All other calls need up to 16 KB. If a type has
 * ten times as many parameters as 3,000, a call needs 2 KB more.
 *
 * ABI. Later versions with the same major number keep the calls, the codes, and the layout of the records. They may add
 * calls, codes and flags.
 */
#ifndef ROCKTRAY_H
#define ROCKTRAY_H

#include <stdbool.h>
#include <stddef.h>
#include <stdint.h>

#ifdef __cplusplus
extern "C" {
#endif

/* The version of this header, as a text and as a number, 10000 * major + 100 * minor + patch. It is filled in where the
 * library is installed. */
#define ROCKTRAY_VERSION "@VERSION@"
#define ROCKTRAY_VERSION_NUMBER @VERSION_NUMBER@

enum rocktray_code {
    ROCKTRAY_DONE = 0,
    ROCKTRAY_TOO_SHORT = 1,
    ROCKTRAY_NO_MEMORY = 2,
    ROCKTRAY_ABSENT = 3,

    /* Why a header block is refused. */
    ROCKTRAY_LEADING_SPACE = 16,        /* a space where a header should begin */
    ROCKTRAY_LONE_CARRIAGE_RETURN = 17, /* a CR without LF where a header should begin */
    ROCKTRAY_TOO_DEEP = 18,             /* a part is more than 100 levels deep; only rocktray_findings refuses it */
    /* Why a body, a name or a text is refused. */
    ROCKTRAY_NOT_BASE64 = 19,
    ROCKTRAY_NOT_UTF8 = 20,
    /* Any other refusal: rocktray_content has it for a body in uuencode without a whole uuencoded file. */
    ROCKTRAY_REFUSED = 21,
    /* The mail has more parts and headers than the caller allows. */
    ROCKTRAY_TOO_MANY = 22,
    /* There are bytes, but no line `From ` that begins a mail of a mailbox. */
    ROCKTRAY_NO_MAILBOX = 23,
    /* What is missing or wrong in a date. */
    ROCKTRAY_DATE_DAY = 32,
    ROCKTRAY_DATE_MONTH = 33,
    ROCKTRAY_DATE_YEAR = 34,
    ROCKTRAY_DATE_TIME = 35,
    /* Its zone, and text after it. No call of this version returns these. */
    ROCKTRAY_DATE_ZONE = 36,
    ROCKTRAY_DATE_TRAILING_TEXT = 37
};

/* Returns the version of the library, as ROCKTRAY_VERSION_NUMBER is that of the header. */
uint32_t rocktray_version(void);

/* The parent of the mail itself, the group of an address that is in none, and the ends of a range that is missing. */
#define ROCKTRAY_NONE UINT64_MAX

/* The transfer encoding of a body. A name that is unknown, or none, is ROCKTRAY_7BIT. */
enum rocktray_encoding {
    ROCKTRAY_7BIT = 0,
    ROCKTRAY_8BIT = 1,
    ROCKTRAY_BINARY = 2,
    ROCKTRAY_QUOTED_PRINTABLE = 3,
    ROCKTRAY_BASE64 = 4,
    ROCKTRAY_UUENCODE = 5 /* x-uuencode, uuencode, x-uue or uue */
};

/* The disposition of a part. */
enum rocktray_disposition {
    ROCKTRAY_UNDISPOSED = 0, /* no Content-Disposition */
    ROCKTRAY_INLINE = 1,
    ROCKTRAY_ATTACHED = 2,
    ROCKTRAY_FORM_DATA = 3,
    ROCKTRAY_OTHERWISE = 4
};

/* The flags of a part; each has one bit. */
enum rocktray_flag {
    ROCKTRAY_IS_LEAF = 1,       /* it has no parts */
    ROCKTRAY_IS_ATTACHMENT = 2, /* the member `attachment` of the JSON: a leaf that is attached or has a file name */
    ROCKTRAY_IS_EXTRACTED = 4,  /* the member `extracted`: `rocktray extract` saves it, and not the files in its text */
    ROCKTRAY_IS_TEXT = 8,       /* the JSON has its text: a leaf of a type text/.. that is not attached */
    ROCKTRAY_IS_MAIL = 16       /* it forwards a mail (message/rfc822, message/global): read its content as a mail */
};

/* A mail or a part of it. All offsets are in bytes of the mail that was read, and an end is the offset after the last
 * byte. */
struct rocktray_part {
    uint64_t parent;                 /* the index of the part that it is in, or ROCKTRAY_NONE for the mail itself */
    uint64_t level;                  /* 0 for the mail, and one more than the level of its parent */
    uint64_t start, end;             /* all its bytes */
    uint64_t body_start, body_end;   /* its body; of a part with parts, the text before the first of them */
    uint64_t first_header;           /* the index of its first header */
    uint64_t header_count;
    uint64_t encoding;               /* of its body: enum rocktray_encoding */
    uint64_t disposition;            /* enum rocktray_disposition */
    uint64_t flags;                  /* a sum of enum rocktray_flag */
};

/* A header. The key is without the colon and the spaces and tabs before the colon, which old mails may have (RFC 5322,
 * section 4.5). The raw value is without the spaces before it and the line end after it, but with the line ends inside
 * it. */
struct rocktray_header_record {
    uint64_t start, key_end;         /* the key, which begins where the header does */
    uint64_t value_start, value_end; /* the raw value */
    uint64_t end;                    /* the end of the header, after its line end */
};

/* What an element of a list of addresses is. */
enum rocktray_address_kind {
    ROCKTRAY_MAILBOX = 0,
    ROCKTRAY_GROUP = 1,  /* its members follow it */
    ROCKTRAY_UNKNOWN = 2 /* text that is no address */
};

/* An element of a list of addresses, or a member of a group. The ranges are offsets in the buffer of strings. */
struct rocktray_address {
    uint64_t kind;                       /* enum rocktray_address_kind */
    uint64_t group;                      /* the index of the group that it is in, or ROCKTRAY_NONE */
    uint64_t name_start, name_end;       /* the display name in UTF-8; empty if it has none */
    uint64_t address_start, address_end; /* the address in canonical form; of unknown text its bytes; else empty */
};

/* A recipient of a delivery report. The ranges are offsets in the buffer of strings; the texts there are in UTF-8,
 * without comments and types. If a field is missing, both its start and its end are ROCKTRAY_NONE. */
struct rocktray_recipient {
    uint64_t final_start, final_end;           /* the address: Final-Recipient; never missing */
    uint64_t original_start, original_end;     /* the address that the sender wrote: Original-Recipient */
    uint64_t action_start, action_end;         /* failed, delayed, ..: Action */
    uint64_t status_start, status_end;         /* as 5.1.1: Status */
    uint64_t diagnostic_start, diagnostic_end; /* the reply of the other mail system: Diagnostic-Code */
};

/* What a finding is about. */
enum rocktray_finding_class {
    ROCKTRAY_CLASS_STRUCTURE = 0, /* where headers, bodies and parts begin and end */
    ROCKTRAY_CLASS_BYTES = 1,     /* the decoded bytes of a part */
    ROCKTRAY_CLASS_NAME = 2,      /* the name of a file, the sender or the subject */
    ROCKTRAY_CLASS_TEXT = 3,      /* the characters of a text */
    ROCKTRAY_CLASS_NOTE = 4       /* a risk, though no two readers were seen to differ if nothing else is found */
};

/* A finding: a place of a mail at which other programs may read something else (docs/FINDINGS.md). Its texts are in
 * UTF-8, and their ranges are offsets in the buffer of strings. */
struct rocktray_finding {
    uint64_t finding_class;                /* enum rocktray_finding_class */
    uint64_t start, end;                   /* the bytes of the mail at which it is found */
    uint64_t name_start, name_end;         /* its name, as lone-cr */
    uint64_t path_start, path_end;         /* the part, by the member `path` of the JSON; empty for a mail with parts */
    uint64_t sentence_start, sentence_end; /* what programs read there, a sentence in English */
};

/* A field of a report. The ranges are offsets in the buffer of strings. */
struct rocktray_field {
    uint64_t block;                  /* the index of its block */
    uint64_t name_start, name_end;   /* its name in UTF-8, as it is written */
    uint64_t value_start, value_end; /* its value in UTF-8, without whitespace around it */
};

/* A uuencoded file in a text. The ranges of its name and of its bytes are offsets in the buffer of strings. */
struct rocktray_text_file {
    uint64_t block_start, block_end;     /* its block in the text, from `begin` to the line `end`, if that follows */
    uint64_t name_start, name_end;       /* its name in UTF-8, as the sender wrote it; never empty */
    uint64_t content_start, content_end; /* its bytes */
    uint64_t is_damaged;                 /* 1 if no line `end` follows its data, so that bytes may be missing, or 0 */
};

#if defined(__cplusplus) && __cplusplus >= 201103L
static_assert(sizeof(struct rocktray_part) == 88, "eleven numbers of 64 bits");
static_assert(sizeof(struct rocktray_header_record) == 40, "five numbers of 64 bits");
static_assert(sizeof(struct rocktray_address) == 48, "six numbers of 64 bits");
static_assert(sizeof(struct rocktray_recipient) == 80, "ten numbers of 64 bits");
static_assert(sizeof(struct rocktray_finding) == 72, "nine numbers of 64 bits");
static_assert(sizeof(struct rocktray_field) == 40, "five numbers of 64 bits");
static_assert(sizeof(struct rocktray_text_file) == 56, "seven numbers of 64 bits");
#elif defined(__STDC_VERSION__) && __STDC_VERSION__ >= 201112L
_Static_assert(sizeof(struct rocktray_part) == 88, "eleven numbers of 64 bits");
_Static_assert(sizeof(struct rocktray_header_record) == 40, "five numbers of 64 bits");
_Static_assert(sizeof(struct rocktray_address) == 48, "six numbers of 64 bits");
_Static_assert(sizeof(struct rocktray_recipient) == 80, "ten numbers of 64 bits");
_Static_assert(sizeof(struct rocktray_finding) == 72, "nine numbers of 64 bits");
_Static_assert(sizeof(struct rocktray_field) == 40, "five numbers of 64 bits");
_Static_assert(sizeof(struct rocktray_text_file) == 56, "seven numbers of 64 bits");
#endif

/* Reads a mail and fills a record for it and for each of its parts, each before its own parts and in their order, and a
 * record for each of their headers, in the order of the parts. A capacity is a number of records, and so is a length.
 * A part whose headers cannot be read, or more than 100 levels deep, is kept as plain text without headers: its body
 * starts where it starts. Refuses with ROCKTRAY_TOO_MANY if there are more than `limit` parts and headers together;
 * SIZE_MAX is no limit. */
uint32_t rocktray_parts(const void *mail, size_t mail_length, size_t limit, struct rocktray_part *parts,
                        size_t parts_capacity, size_t *parts_needed, struct rocktray_header_record *headers,
                        size_t headers_capacity, size_t *headers_needed);

/* The same for the headers of a mail or a part alone: only the header block is read, which ends as it does for
 * rocktray_parts, also before a line that begins with `--` and has no colon. Offsets are counted from `part`. `limit` is
 * the greatest number of headers. Refuses a block with ROCKTRAY_LEADING_SPACE or _LONE_CARRIAGE_RETURN. */
uint32_t rocktray_headers(const void *part, size_t part_length, size_t limit, struct rocktray_header_record *headers,
                          size_t headers_capacity, size_t *headers_needed);

/* Writes the text of a header in UTF-8, given its raw value: unfolded, with its encoded words decoded wherever they are
 * (docs/RULES.md, "Header values, leniently"). */
uint32_t rocktray_value(const void *raw_value, size_t raw_value_length, void *buffer, size_t capacity, size_t *needed);

/* Reads the raw value of a Content-Type leniently. Writes strings in UTF-8 one after another to the buffer, and the end of each
 * to `ends`: first the type in lower case, as text/plain; then the charset, us-ascii if none is given; then each
 * parameter: its name in lower case, and its value. Parameters are in the order of their names. String k is
 * buffer[k ? ends[k - 1] : 0] to buffer[ends[k] - 1]. */
uint32_t rocktray_type(const void *raw_value, size_t raw_value_length, uint64_t *ends, size_t ends_capacity,
                       size_t *ends_needed, void *buffer, size_t capacity, size_t *needed);

/* Writes the file name of a part in UTF-8, as the sender gave it, given the raw values of its first Content-Disposition
 * and its first Content-Type; a length of 0 if it has none. Returns ROCKTRAY_ABSENT if there is no name. */
uint32_t rocktray_file_name(const void *raw_disposition, size_t raw_disposition_length, const void *raw_type,
                            size_t raw_type_length, void *buffer, size_t capacity, size_t *needed);

/* Writes a name that is safe in any directory, made from a file name: at most 255 bytes, without `/`, `\`, control
 * characters, those that change the direction of text or are shown as nothing, and neither empty nor `.` nor `..`. Refuses
 * with ROCKTRAY_NOT_UTF8. */
uint32_t rocktray_safe_name(const void *name, size_t name_length, void *buffer, size_t capacity, size_t *needed);

/* Writes the decoded bytes of a body: the file, if it is one. `encoding` is that of the part's record; any other number
 * is as ROCKTRAY_7BIT. Sets *is_damaged to whether the body is damaged: then the result is the bytes that can be read.
 * Only Base64 and uuencode can be damaged; a body in uuencode is also if it has no uuencoded file, and then the result
 * is the body. *is_damaged is unchanged after any code but ROCKTRAY_DONE and ROCKTRAY_TOO_SHORT. */
uint32_t rocktray_body(uint64_t encoding, const void *body, size_t body_length, void *buffer, size_t capacity,
                       size_t *needed, bool *is_damaged);

/* Writes the text of a body in UTF-8, as rocktray_text does for a part, given the raw value of the part's first
 * Content-Type; a length of 0 if it has none. Sets *is_damaged as rocktray_body does. */
uint32_t rocktray_body_text(uint64_t encoding, const void *body, size_t body_length, const void *raw_type,
                            size_t raw_type_length, void *buffer, size_t capacity, size_t *needed, bool *is_damaged);

/* Writes the name of the charset in which rocktray_body_text reads that text, as the member text_charset of the JSON:
 * that of a byte order mark, `utf-8` or `windows-1252` if the type gives no charset that is known, or the label that it
 * gives. Decodes the body once more. */
uint32_t rocktray_body_charset(uint64_t encoding, const void *body, size_t body_length, const void *raw_type,
                               size_t raw_type_length, void *buffer, size_t capacity, size_t *needed);

/* Reads the fields of a report: of a part message/delivery-status, message/global-delivery-status,
 * message/feedback-report or message/disposition-notification (RFC 3464, 6533, 5965, 8098). `part` is the part's own
 * bytes. Fills a record for each field, in their order, and writes their strings to the buffer. The blocks of a report,
 * which empty lines separate, are counted from 0; one whose fields cannot be read has none. Returns ROCKTRAY_ABSENT if
 * the type of the part is another one. Refuses no part. */
uint32_t rocktray_report(const void *part, size_t part_length, struct rocktray_field *fields, size_t fields_capacity,
                         size_t *fields_needed, void *buffer, size_t capacity, size_t *needed);

/* Reads the recipients that a mail reports: those of the delivery reports anywhere in it (RFC 3464, 6533), and then
 * those in its headers X-Failed-Recipients, of whom only the address is known. Fills a record for each, and writes
 * their strings to the buffer. A mail that is no such report has none. Refuses no mail. */
uint32_t rocktray_recipients(const void *mail, size_t mail_length, struct rocktray_recipient *recipients,
                             size_t recipients_capacity, size_t *recipients_needed, void *buffer, size_t capacity,
                             size_t *needed);

/* Lists the places of a mail at which other programs may read something else, as `rocktray check` does: fills a record
 * for each, in their order, and writes their strings to the buffer. For them the mail is read strictly, and refused with
 * ROCKTRAY_LEADING_SPACE, _LONE_CARRIAGE_RETURN or _TOO_DEEP if a part of it is. The findings of the mails inside it
 * follow its own. */
uint32_t rocktray_findings(const void *mail, size_t mail_length, struct rocktray_finding *findings,
                           size_t findings_capacity, size_t *findings_needed, void *buffer, size_t capacity,
                           size_t *needed);

/* Reads the uuencoded files in a text, which mail programs wrote there before MIME (docs/RULES.md, "Uuencoded files in
 * texts"). Fills a record for each file, in their order, and writes their names and bytes to the buffer; make a name safe
 * by rocktray_safe_name. `text` is what rocktray_body writes of a part that ROCKTRAY_IS_LEAF marks, ROCKTRAY_IS_EXTRACTED
 * does not, and whose type is not text/html: the files in such texts are those that `rocktray extract` saves, and that
 * the JSON has as `text_files`. At most `limit` blocks are read, and a million there. Refuses no text. */
uint32_t rocktray_text_files(const void *text, size_t text_length, size_t limit, struct rocktray_text_file *files,
                             size_t files_capacity, size_t *files_needed, void *buffer, size_t capacity,
                             size_t *needed);

/* Reads the raw value of a header with addresses, as From or To. Fills a record for each element, and writes their
 * strings to the buffer. */
uint32_t rocktray_addresses(const void *raw_value, size_t raw_value_length, struct rocktray_address *addresses,
                            size_t addresses_capacity, size_t *addresses_needed, void *buffer, size_t capacity,
                            size_t *needed);

/* Writes the id of the mail that a delivery report is about, with no angle brackets. Returns ROCKTRAY_ABSENT if the
 * mail is no such report or does not give the id. Refuses no mail. */
uint32_t rocktray_bounced_id(const void *mail, size_t mail_length, void *buffer, size_t capacity, size_t *needed);

/* Writes a mail of a mailbox in the format mboxrd without the `>` that its writer put before lines `From `. */
uint32_t rocktray_unquoted(const void *mail, size_t mail_length, void *buffer, size_t capacity, size_t *needed);

/* Writes a mail as one line of JSON, LF included, as `rocktray json` does: headers, dates, ids, and all parts
 * with their types, texts and offsets (docs/mail_json.schema.json). The bytes of a part are mail[start] to
 * mail[end - 1], by the members `start` and `end` of its object. Both are null for parts of a forwarded mail that is
 * encoded: decode that mail by rocktray_content first. Refuses no mail. */
uint32_t rocktray_json(const void *mail, size_t mail_length, void *buffer, size_t capacity, size_t *needed);

/* Writes the decoded bytes of the body of a mail or a part, without its transfer encoding: the file, if it is one.
 * `part` is the part's own bytes. Refuses with ROCKTRAY_NOT_BASE64, and a body in uuencode without a whole uuencoded file
 * with ROCKTRAY_REFUSED. */
uint32_t rocktray_content(const void *part, size_t part_length, void *buffer, size_t capacity, size_t *needed);

/* Writes the text of the body of a mail or a part in UTF-8. It is decoded leniently: bytes outside the alphabet of
 * Base64 are ignored, damaged Base64 and uuencode is decoded up to the damage, and text without a known charset is
 * decoded as UTF-8 if it is valid, and otherwise as windows-1252. Refuses no mail. */
uint32_t rocktray_text(const void *part, size_t part_length, void *buffer, size_t capacity, size_t *needed);

/* Writes the text of a header in UTF-8, as rocktray_value does. `number` selects one of the headers
 * with this name, counting from 0. The name is in any case, and without a colon and blanks before it. Only the headers
 * are read that rocktray_headers finds.
 * Returns ROCKTRAY_ABSENT if there is no such header. Refuses with ROCKTRAY_LEADING_SPACE or _LONE_CARRIAGE_RETURN for
 * the block, and with ROCKTRAY_NOT_UTF8 for the name. */
uint32_t rocktray_header(const void *part, size_t part_length, const void *name, size_t name_length,
                         size_t number, void *buffer, size_t capacity, size_t *needed);

/* Writes the raw value of that header, without the spaces before it and the line end after it. */
uint32_t rocktray_raw_header(const void *part, size_t part_length, const void *name, size_t name_length,
                             size_t number, void *buffer, size_t capacity, size_t *needed);

/* Writes the message ids in a text, each between `<` and `>`, without separators. Of a header give the raw value: no
 * encoded word occurs in an id (RFC 2047, section 5). With needs_at, only those with an `@` are ids, as in References; a
 * mail's own Message-ID may have none. Refuses with ROCKTRAY_NOT_UTF8. */
uint32_t rocktray_ids(const void *text, size_t text_length, bool needs_at, void *buffer, size_t capacity,
                      size_t *needed);

/* Reads the value of a Date header: sets *seconds to the seconds since 1 January 1970, 00:00 UTC, and *is_zone_known to
 * whether it gives its zone; otherwise it is read as UTC. If it is refused, *seconds is unchanged and *is_zone_known is
 * false. Refuses with ROCKTRAY_NOT_UTF8, or one of the codes ROCKTRAY_DATE_... */
uint32_t rocktray_date(const void *text, size_t text_length, int64_t *seconds, bool *is_zone_known);

/* Reads the value of a Date header as rocktray_date does, and sets *offset to the seconds by which the clocks of its zone
 * are ahead of UTC: negative west of Greenwich, and 0 if the zone is not known. Unchanged if it is refused. */
uint32_t rocktray_date_and_offset(const void *text, size_t text_length, int64_t *seconds, int64_t *offset,
                                  bool *is_zone_known);

/* Finds the first mail of a mailbox (mbox, RFC 4155): the mail is mailbox[*start] to mailbox[*end - 1], without the
 * line `From ..` before it and the empty line after it. For the next mail, call it again with mailbox + *next and the
 * length minus *next: all calls together take time linear in the mailbox. Text before the first `From ` line is
 * skipped. With is_counted, the length of a mail is that in its Content-Length (mboxcl, mboxcl2). Returns
 * ROCKTRAY_ABSENT if there are no bytes, as after the last mail, and ROCKTRAY_NO_MAILBOX if there are bytes but no such
 * line; then the three are unchanged. Does not allocate. */
uint32_t rocktray_next_mail(const void *mailbox, size_t mailbox_length, bool is_counted, size_t *start, size_t *end,
                            size_t *next);

/* Writes the text of HTML in UTF-8, for search and for reading: without tags, comments and scripts, with its character
 * references resolved. With shows_links, each link has a number, and the targets follow the text as footnotes. Nothing
 * here makes HTML safe. Refuses with ROCKTRAY_NOT_UTF8. */
uint32_t rocktray_html_text(const void *html, size_t html_length, bool shows_links, void *buffer, size_t capacity,
                            size_t *needed);

/* Writes the text to be read of a mail in UTF-8: its plain text, or the text of its HTML as rocktray_html_text writes
 * it, if there is no plain text or it consists of whitespace. Text is decoded as rocktray_text does. Returns
 * ROCKTRAY_ABSENT if the mail has no text. Refuses no mail. */
uint32_t rocktray_readable_text(const void *mail, size_t mail_length, bool shows_links, void *buffer, size_t capacity,
                                size_t *needed);

/* Writes the text of a code, in English. For a refused mail or part it is the text in the line of rocktray json. */
uint32_t rocktray_reason(uint32_t code, void *buffer, size_t capacity, size_t *needed);

#ifdef __cplusplus
}
#endif
#endif
