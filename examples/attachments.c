/* Shows the subject of a mail, and the name, the size and the first bytes of each attachment. All of these are texts of
 * strangers: nothing of them may begin a line, move the terminal's cursor or change the direction of text. */
#include <rocktray.h>
#include <stdio.h>
#include <string.h>
#include <strings.h>

static char mail[1 << 24], file[1 << 24], name[1000];
static struct rocktray_part parts[1000];
static struct rocktray_header_record headers[10000];

/* Returns the raw value of the first header of a part with this name, and its length, 0 if there is none. */
static const char *first(const struct rocktray_part *part, const char *wanted, size_t *length)
{
    for (uint64_t i = part->first_header; i < part->first_header + part->header_count; i++) {
        const char *key = mail + headers[i].start;
        *length = headers[i].value_end - headers[i].value_start;
        if (headers[i].key_end - headers[i].start == strlen(wanted) && strncasecmp(key, wanted, strlen(wanted)) == 0)
            return mail + headers[i].value_start;
    }
    *length = 0;
    return mail;
}

/* Whether a character of Unicode is a control, ends a line or changes the direction of text. */
static bool is_hidden(uint32_t c)
{
    return c < 0x20 || (c >= 0x7F && c < 0xA0) || c == 0x61C || c == 0x200E || c == 0x200F ||
           (c >= 0x2028 && c <= 0x202E) || (c >= 0x2066 && c <= 0x2069);
}

/* Writes a text in UTF-8, and ? for each character that is hidden. */
static void show(const char *text, size_t size)
{
    for (size_t i = 0, n; i < size; i += n) {
        uint32_t c = (unsigned char)text[i];
        n = c < 0x80 ? 1 : c < 0xE0 ? 2 : c < 0xF0 ? 3 : 4;
        c &= n == 1 ? 0x7F : 0xFFu >> (n + 1);
        for (size_t k = 1; k < n; k++)
            c = c << 6 | (text[i + k] & 0x3F);
        is_hidden(c) ? (void)putchar('?') : (void)fwrite(text + i, 1, n, stdout);
    }
}

/* Writes bytes of a file, and ? for each that is no character of ASCII. */
static void show_bytes(const char *bytes, size_t size)
{
    for (size_t i = 0; i < size; i++)
        putchar(bytes[i] >= 0x20 && bytes[i] < 0x7F ? bytes[i] : '?');
}

int main(int argc, char **argv)
{
    FILE *input = argc == 2 ? fopen(argv[1], "rb") : NULL;
    size_t length = input ? fread(mail, 1, sizeof mail, input) : 0, count, headers_count, size, d_length, t_length;
    if (!input || ferror(input) || length == sizeof mail)
        return fprintf(stderr, "attachments: give a file with a mail of less than %zu bytes\n", sizeof mail), 1;
    uint32_t code = rocktray_parts(mail, length, SIZE_MAX, parts, 1000, &count, headers, 10000, &headers_count);
    if (code != ROCKTRAY_DONE) {
        code = rocktray_reason(code, name, sizeof name, &size);
        return fprintf(stderr, "%.*s\n", (int)size, name), 1;
    }
    const char *subject = first(&parts[0], "Subject", &length);
    if (rocktray_value(subject, length, name, sizeof name, &size) == ROCKTRAY_DONE)
        printf("Subject: "), show(name, size), printf("\n");
    for (struct rocktray_part *part = parts; part < parts + count; part++) {
        bool is_damaged;
        const char *type = first(part, "Content-Type", &t_length);
        const char *disposition = first(part, "Content-Disposition", &d_length);
        if (!(part->flags & ROCKTRAY_IS_ATTACHMENT))
            continue;
        if (rocktray_file_name(disposition, d_length, type, t_length, name, sizeof name, &size) == ROCKTRAY_DONE)
            show(name, size), printf(": ");
        if (rocktray_body(part->encoding, mail + part->body_start, part->body_end - part->body_start, file, sizeof file,
                          &size, &is_damaged) == ROCKTRAY_DONE)
            printf("%zu bytes, which begin ", size), show_bytes(file, size < 4 ? size : 4),
                printf("%s\n", is_damaged ? " (damaged)" : "");
    }
    return 0;
}
