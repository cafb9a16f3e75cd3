/* What the dumpers in C and C++ share: the lines that they write, and the files that they read. */
#include <stdio.h>
#include <stdlib.h>
#include <string.h>

/* A space, and bytes in hexadecimal, or `-` for none. */
static void dump_hex(const char *bytes, size_t length) {
    putchar(' ');
    for (size_t at = 0; at < length; at++) printf("%02x", (unsigned char)bytes[at]);
    if (length == 0) putchar('-');
}

/* The same of a text, which may be absent. */
static void dump_text(const char *text) { dump_hex(text ? text : "", text ? strlen(text) : 0); }

/* The start of a line of a part; what follows is `*` for a part with parts, and for another its bytes. */
static void dump_part(int depth, const char *type, const char *name) {
    printf("part %d", depth);
    dump_text(type);
    dump_text(name);
}

/* The last lines of a mail. */
static void dump_end(const char *subject, const char *from) {
    printf("subject");
    dump_text(subject);
    printf("\nfrom");
    dump_text(from);
    puts("\nend");
    fflush(stdout);
}

/* The next file of those that standard input names, or NULL after the last. The caller frees it. */
static char *next_file(size_t *length) {
    static char path[4096];
    if (!fgets(path, sizeof path, stdin)) return NULL;
    path[strcspn(path, "\n")] = 0;
    FILE *file = fopen(path, "rb");
    if (!file) exit(1);
    fseek(file, 0, SEEK_END);
    *length = (size_t)ftell(file);
    rewind(file);
    char *data = (char *)malloc(*length + 1);
    if (!data || fread(data, 1, *length, file) != *length) exit(1);
    data[*length] = 0;
    fclose(file);
    return data;
}
