/* Tests the C library; tests/test_c.py builds and runs it, linked so that this file sees each call for memory.
 *
 *   check cases           every code of every call, buffers of every capacity around the right one, empty inputs, null
 *                         pointers with length 0, and each allocation refused in turn
 *   check threads FILE..  eight threads, each over all cases and files, with the results of one
 *   check lines FILE..    the line of each mail, or that of its refusal, as rocktray json --mail writes it
 *   check stack KB FILE.. the bytes of stack that calls on ranges, calls on mails and rocktray_json change at most, each
 *                         in a thread with a stack of that many KB, which ends the program if that is too little
 *   check records FILE..  the records of each mail and what the calls on ranges read of it, as test_c.py reads them
 *
 * The first two end in `N passed, N failed`.
 */
#define _GNU_SOURCE /* for pthread_attr_setstack */
#include <rocktray.h>

#include <pthread.h>
#include <stdatomic.h>
#include <stdio.h>
#include <stdlib.h>
#include <string.h>
#include <strings.h>
#include <sys/mman.h>

#define THREADS 8

/* Allocation. The linker redirects the library's calls here (--wrap). */

void *__real_malloc(size_t size);
void *__real_realloc(void *block, size_t size);
void __real_free(void *block);

static _Thread_local long calls, refuse_at, blocks;
static _Thread_local int is_library, refuses_all_after;

static int is_refused(void)
{
    calls++;
    return refuse_at && (calls == refuse_at || (refuses_all_after && calls > refuse_at));
}

void *__wrap_malloc(size_t size)
{
    void *block;
    if (!is_library)
        return __real_malloc(size);
    block = is_refused() ? NULL : __real_malloc(size);
    blocks += block != NULL;
    return block;
}

void *__wrap_realloc(void *block, size_t size)
{
    void *moved;
    if (!is_library)
        return __real_realloc(block, size);
    moved = is_refused() ? NULL : __real_realloc(block, size);
    blocks += block == NULL && moved != NULL;
    return moved;
}

void __wrap_free(void *block)
{
    if (is_library)
        blocks -= block != NULL;
    __real_free(block);
}

/* Cases. */

enum kind {
    JSON, CONTENT, TEXT, HEADER, RAW_HEADER, IDS, OWN_IDS, HTML_TEXT, HTML_LINKS, READABLE, BOUNCED_ID, UNQUOTED,
    VALUE, FILE_NAME, SAFE_NAME, BODY, DAMAGED_BODY, BODY_TEXT, BODY_CHARSET, REASON
};

struct bytes {
    const uint8_t *at;
    size_t length;
};

#define BYTES(text) { (const uint8_t *)(text), sizeof(text) - 1 }
#define NOTHING { NULL, 0 }

struct test {
    enum kind kind;
    struct bytes input;
    struct bytes name;
    size_t number; /* of a header, of an encoding, or the code for a reason */
    uint32_t code;
    struct bytes result;
};

#define PART "Content-Type: text/plain; charset="
#define IN_BASE64 "Content-Transfer-Encoding: base64\n\n"
#define IN_UUENCODE "Content-Transfer-Encoding: x-uuencode\n\nbegin 644 a\n#0V%T\n"
#define REPORT "Content-Type: multipart/report; boundary=b\n\n--b\nContent-Type: message/delivery-status\n\n"

static const struct test tests[] = {
    /* the result for JSON is not compared here: `check lines` does that */
    { JSON, BYTES("Subject: Hi\n\nHello\n"), NOTHING, 0, ROCKTRAY_DONE, NOTHING },
    { JSON, NOTHING, NOTHING, 0, ROCKTRAY_DONE, NOTHING },
    { JSON, BYTES(" Subject: Hi\n\n"), NOTHING, 0, ROCKTRAY_DONE, NOTHING },
    { JSON, BYTES("Subject: Hi\n\rHello"), NOTHING, 0, ROCKTRAY_DONE, NOTHING },
    /* RFC 2045, section 6; RFC 4648, section 10 */
    { CONTENT, BYTES(IN_BASE64 "Zm9vYmFy"), NOTHING, 0, ROCKTRAY_DONE, BYTES("foobar") },
    { CONTENT, BYTES(IN_BASE64 "Zm9v*mFy"), NOTHING, 0, ROCKTRAY_NOT_BASE64, NOTHING },
    { CONTENT, BYTES("Content-Transfer-Encoding: quoted-printable\n\na=3Db=\nc"), NOTHING, 0, ROCKTRAY_DONE,
      BYTES("a=bc") },
    { CONTENT, BYTES(IN_UUENCODE "`\nend\n"), NOTHING, 0, ROCKTRAY_DONE, BYTES("Cat") },
    { CONTENT, BYTES(IN_UUENCODE), NOTHING, 0, ROCKTRAY_REFUSED, NOTHING },
    { CONTENT, BYTES("\n\0\xff"), NOTHING, 0, ROCKTRAY_DONE, BYTES("\0\xff") },
    { CONTENT, NOTHING, NOTHING, 0, ROCKTRAY_DONE, BYTES("") },
    /* headers that cannot be read */
    { CONTENT, BYTES(" x"), NOTHING, 0, ROCKTRAY_DONE, BYTES(" x") },
    { CONTENT, BYTES("\rx"), NOTHING, 0, ROCKTRAY_DONE, BYTES("\rx") },
    /* the Encoding Standard */
    { TEXT, BYTES(PART "windows-1252\n\n5 \x80"), NOTHING, 0, ROCKTRAY_DONE, BYTES("5 \xe2\x82\xac") },
    { TEXT, BYTES(PART "koi8-r\n\n\xd0\xd2"), NOTHING, 0, ROCKTRAY_DONE, BYTES("\xd0\xbf\xd1\x80") },
    { TEXT, BYTES(PART "gb18030\n\n\xc4\xe3\xba\xc3\x95\x32\x82\x36"), NOTHING, 0, ROCKTRAY_DONE,
      BYTES("\xe4\xbd\xa0\xe5\xa5\xbd\xf0\xa0\x80\x80") },
    { TEXT, BYTES(PART "shift_jis\n\n\x83\x65"), NOTHING, 0, ROCKTRAY_DONE, BYTES("\xe3\x83\x86") },
    { TEXT, BYTES(PART "euc-kr\n\n\xc7\xd1"), NOTHING, 0, ROCKTRAY_DONE, BYTES("\xed\x95\x9c") },
    { TEXT, BYTES(PART "utf-8\n\n\xff"), NOTHING, 0, ROCKTRAY_DONE, BYTES("\xef\xbf\xbd") },
    { TEXT, BYTES(IN_BASE64 "Zm9v*YmFy"), NOTHING, 0, ROCKTRAY_DONE, BYTES("foobar") },
    { TEXT, BYTES(IN_BASE64 "Zm9v*Y"), NOTHING, 0, ROCKTRAY_DONE, BYTES("foo") },
    { TEXT, NOTHING, NOTHING, 0, ROCKTRAY_DONE, BYTES("") },
    { TEXT, BYTES(" x"), NOTHING, 0, ROCKTRAY_DONE, BYTES(" x") },
    /* RFC 2047; RFC 5322, section 2.2.3 */
    { HEADER, BYTES("Subject: =?utf-8?q?caf=C3=A9?=\r\n at noon\r\n\r\n"), BYTES("SUBJECT"), 0, ROCKTRAY_DONE,
      BYTES("caf\xc3\xa9 at noon") },
    { HEADER, BYTES("Subject: =?iso-2022-jp?b?GyRCJCIbKEI=?=\n"), BYTES("Subject"), 0, ROCKTRAY_DONE,
      BYTES("\xe3\x81\x82") },
    { HEADER, BYTES("To: a\nCc: c\nTo: b\n"), BYTES("to"), 1, ROCKTRAY_DONE, BYTES("b") },
    { HEADER, BYTES("To: a\nCc: c\nTo: b\n"), BYTES("to"), 2, ROCKTRAY_ABSENT, NOTHING },
    { HEADER, BYTES("To: a\n\nCc: c\n"), BYTES("Cc"), 0, ROCKTRAY_ABSENT, NOTHING },
    { HEADER, BYTES("To: a\n"), BYTES("To"), (size_t)-1, ROCKTRAY_ABSENT, NOTHING },
    { HEADER, BYTES("To:\n"), BYTES("To"), 0, ROCKTRAY_DONE, BYTES("") },
    { HEADER, BYTES(": x\n"), NOTHING, 0, ROCKTRAY_DONE, BYTES("x") },
    { HEADER, BYTES("To: a\n"), BYTES("\xff"), 0, ROCKTRAY_NOT_UTF8, NOTHING },
    { HEADER, NOTHING, NOTHING, 0, ROCKTRAY_ABSENT, NOTHING },
    { HEADER, BYTES(" To: a\n"), BYTES("To"), 0, ROCKTRAY_LEADING_SPACE, NOTHING },
    { RAW_HEADER, BYTES("A:  b \r\n\tc\r\n\r\n"), BYTES("a"), 0, ROCKTRAY_DONE, BYTES("b \r\n\tc") },
    { RAW_HEADER, BYTES("To: a\nTo: =?x?q?y?=\n"), BYTES("To"), 1, ROCKTRAY_DONE, BYTES("=?x?q?y?=") },
    { RAW_HEADER, BYTES("To: a\n"), BYTES("From"), 0, ROCKTRAY_ABSENT, NOTHING },
    { RAW_HEADER, BYTES("To: a\n"), BYTES("\xc3"), 0, ROCKTRAY_NOT_UTF8, NOTHING },
    { RAW_HEADER, BYTES("To: a\n\r"), BYTES("To"), 0, ROCKTRAY_LONE_CARRIAGE_RETURN, NOTHING },
    /* headers end before a line that begins with `--` and has no colon */
    { HEADER, BYTES("To: a\n \n--b\nCc: c\n"), BYTES("To"), 0, ROCKTRAY_DONE, BYTES("a ") },
    { HEADER, BYTES("To: a\n \n--b\nCc: c\n"), BYTES("Cc"), 0, ROCKTRAY_ABSENT, NOTHING },
    { HEADER, BYTES("To: a\r\n--b\r\n x"), BYTES("To"), 0, ROCKTRAY_DONE, BYTES("a") },
    { HEADER, BYTES("--b\nTo: a\n--b: c\n"), BYTES("--B"), 1, ROCKTRAY_DONE, BYTES("c") },
    { HEADER, BYTES("To: a\n\r--b"), BYTES("To"), 0, ROCKTRAY_LONE_CARRIAGE_RETURN, NOTHING },
    { RAW_HEADER, BYTES("To: a\n--\n\r"), BYTES("To"), 0, ROCKTRAY_DONE, BYTES("a") },
    { RAW_HEADER, BYTES(" To: a\n--b\n"), BYTES("To"), 0, ROCKTRAY_LEADING_SPACE, NOTHING },
    /* RFC 5322, section 3.6.4 */
    { IDS, BYTES("<a@b>\n <no> x <c@d>"), NOTHING, 0, ROCKTRAY_DONE, BYTES("<a@b><c@d>") },
    { OWN_IDS, BYTES("<1234> <>"), NOTHING, 0, ROCKTRAY_DONE, BYTES("<1234>") },
    { IDS, NOTHING, NOTHING, 0, ROCKTRAY_DONE, BYTES("") },
    { IDS, BYTES("<a@b\xff>"), NOTHING, 0, ROCKTRAY_NOT_UTF8, NOTHING },
    { IDS, BYTES("<=?utf-8?Q?a=40b?=> <c@d>"), NOTHING, 0, ROCKTRAY_DONE, BYTES("<c@d>") },
    /* the HTML Standard, section 13.2.5 */
    { HTML_TEXT, BYTES("<p>1 &lt; 2<script>x</script><p><a href=y>z</a>"), NOTHING, 0, ROCKTRAY_DONE,
      BYTES("1 < 2\n\nz") },
    { HTML_LINKS, BYTES("<a href=y>z</a>"), NOTHING, 0, ROCKTRAY_DONE, BYTES("[1]z\n\n[1] y") },
    { HTML_TEXT, NOTHING, NOTHING, 0, ROCKTRAY_DONE, BYTES("") },
    { HTML_TEXT, BYTES("\xff"), NOTHING, 0, ROCKTRAY_NOT_UTF8, NOTHING },
    { READABLE, BYTES("Content-Type: text/html\n\n<p>a<br>b"), NOTHING, 0, ROCKTRAY_DONE, BYTES("a\nb") },
    { READABLE, BYTES("Subject: plain\n\n<p>"), NOTHING, 0, ROCKTRAY_DONE, BYTES("<p>") },
    { READABLE, BYTES("Content-Type: image/png\n\n<p>"), NOTHING, 0, ROCKTRAY_ABSENT, NOTHING },
    { READABLE, BYTES(" x"), NOTHING, 0, ROCKTRAY_DONE, BYTES(" x") },
    /* RFC 3464, section 2 */
    { BOUNCED_ID, BYTES("Content-Type: multipart/report; boundary=b\n\n--b\nContent-Type: message/rfc822\n\n"
                        "Message-ID: <1@a>\n\nx\n--b--\n"), NOTHING, 0, ROCKTRAY_DONE, BYTES("1@a") },
    { BOUNCED_ID, NOTHING, NOTHING, 0, ROCKTRAY_ABSENT, NOTHING },
    { BOUNCED_ID, BYTES(" x"), NOTHING, 0, ROCKTRAY_ABSENT, NOTHING },
    /* the mboxrd format */
    { UNQUOTED, BYTES("a\n>From b\n>>From c\n>x\n"), NOTHING, 0, ROCKTRAY_DONE, BYTES("a\nFrom b\n>From c\n>x\n") },
    { UNQUOTED, NOTHING, NOTHING, 0, ROCKTRAY_DONE, BYTES("") },
    /* RFC 2047; RFC 5322, section 2.2.3 */
    { VALUE, BYTES("=?utf-8?q?caf=C3=A9?=\r\n at noon"), NOTHING, 0, ROCKTRAY_DONE, BYTES("caf\xc3\xa9 at noon") },
    { VALUE, BYTES("=?koi8-r?b?0NI=?="), NOTHING, 0, ROCKTRAY_DONE, BYTES("\xd0\xbf\xd1\x80") },
    { VALUE, NOTHING, NOTHING, 0, ROCKTRAY_DONE, BYTES("") },
    /* RFC 2183, section 2.3; RFC 2231 */
    { FILE_NAME, BYTES("attachment; filename=a.pdf"), NOTHING, 0, ROCKTRAY_DONE, BYTES("a.pdf") },
    { FILE_NAME, BYTES("attachment; filename*=utf-8''%E2%82%AC"), NOTHING, 0, ROCKTRAY_DONE, BYTES("\xe2\x82\xac") },
    { FILE_NAME, BYTES("inline"), BYTES("image/png; name=\"b c.png\""), 0, ROCKTRAY_DONE, BYTES("b c.png") },
    { FILE_NAME, NOTHING, BYTES("text/plain"), 0, ROCKTRAY_ABSENT, NOTHING },
    { SAFE_NAME, BYTES("../a\\b\n"), NOTHING, 0, ROCKTRAY_DONE, BYTES(".._a_b_") },
    { SAFE_NAME, NOTHING, NOTHING, 0, ROCKTRAY_DONE, BYTES("_") },
    { SAFE_NAME, BYTES("\xff"), NOTHING, 0, ROCKTRAY_NOT_UTF8, NOTHING },
    /* RFC 2045, section 6; RFC 4648, section 10 */
    { BODY, BYTES("Zm9v\nYmFy"), NOTHING, ROCKTRAY_BASE64, ROCKTRAY_DONE, BYTES("foobar") },
    { DAMAGED_BODY, BYTES("Zm9vY"), NOTHING, ROCKTRAY_BASE64, ROCKTRAY_DONE, BYTES("foo") },
    { BODY, BYTES("a=3Db=\nc"), NOTHING, ROCKTRAY_QUOTED_PRINTABLE, ROCKTRAY_DONE, BYTES("a=bc") },
    { BODY, BYTES("a=3D\0\xff"), NOTHING, ROCKTRAY_BINARY, ROCKTRAY_DONE, BYTES("a=3D\0\xff") },
    { BODY, BYTES("a=3D"), NOTHING, 77, ROCKTRAY_DONE, BYTES("a=3D") },
    { BODY, NOTHING, NOTHING, ROCKTRAY_7BIT, ROCKTRAY_DONE, BYTES("") },
    /* POSIX.1, uuencode */
    { BODY, BYTES("begin 644 a\n#0V%T\n`\nend\n"), NOTHING, ROCKTRAY_UUENCODE, ROCKTRAY_DONE, BYTES("Cat") },
    { DAMAGED_BODY, BYTES("begin 644 a\n#0V%T\n"), NOTHING, ROCKTRAY_UUENCODE, ROCKTRAY_DONE, BYTES("Cat") },
    { BODY_TEXT, BYTES("5 \x80"), BYTES("text/plain; charset=windows-1252"), ROCKTRAY_8BIT, ROCKTRAY_DONE,
      BYTES("5 \xe2\x82\xac") },
    { BODY_TEXT, BYTES("0NI="), BYTES("text/plain; charset=koi8-r"), ROCKTRAY_BASE64, ROCKTRAY_DONE,
      BYTES("\xd0\xbf\xd1\x80") },
    { BODY_TEXT, BYTES("\xe2\x82\xac"), NOTHING, ROCKTRAY_7BIT, ROCKTRAY_DONE, BYTES("\xe2\x82\xac") },
    { BODY_TEXT, NOTHING, NOTHING, ROCKTRAY_7BIT, ROCKTRAY_DONE, BYTES("") },
    /* RFC 2045, section 5.2; RFC 2046, section 4.1.2 */
    { BODY_CHARSET, BYTES("5 \x80"), BYTES("text/plain; charset=\" KOI8-R \""), ROCKTRAY_8BIT, ROCKTRAY_DONE,
      BYTES("KOI8-R") },
    { BODY_CHARSET, BYTES("77u/YQ=="), BYTES("text/plain; charset=koi8-r"), ROCKTRAY_BASE64, ROCKTRAY_DONE,
      BYTES("utf-8") },
    { BODY_CHARSET, BYTES("5 \x80"), BYTES("text/plain; charset=nonsense"), ROCKTRAY_8BIT, ROCKTRAY_DONE,
      BYTES("windows-1252") },
    { BODY_CHARSET, NOTHING, NOTHING, ROCKTRAY_7BIT, ROCKTRAY_DONE, BYTES("utf-8") },
    { REASON, NOTHING, NOTHING, ROCKTRAY_TOO_DEEP, ROCKTRAY_DONE, BYTES("Recursion limit reached") },
    { REASON, NOTHING, NOTHING, ROCKTRAY_DATE_MONTH, ROCKTRAY_DONE, BYTES("no month") },
    { REASON, NOTHING, NOTHING, 1000, ROCKTRAY_DONE, BYTES("unknown code") },
};

#define TESTS (sizeof tests / sizeof tests[0])

static uint32_t call(const struct test *test, uint8_t *buffer, size_t capacity, size_t *needed)
{
    const struct bytes in = test->input, name = test->name;
    const bool is_body = test->kind >= BODY && test->kind <= BODY_TEXT;
    bool is_damaged;
    uint8_t before;
    uint32_t code = 0;
    memset(&is_damaged, 0xA5, sizeof is_damaged);
    memcpy(&before, &is_damaged, 1);
    is_library = 1;
    switch (test->kind) {
    case JSON: code = rocktray_json(in.at, in.length, buffer, capacity, needed); break;
    case CONTENT: code = rocktray_content(in.at, in.length, buffer, capacity, needed); break;
    case TEXT: code = rocktray_text(in.at, in.length, buffer, capacity, needed); break;
    case HEADER:
        code = rocktray_header(in.at, in.length, name.at, name.length, test->number, buffer, capacity, needed);
        break;
    case RAW_HEADER:
        code = rocktray_raw_header(in.at, in.length, name.at, name.length, test->number, buffer, capacity, needed);
        break;
    case IDS: code = rocktray_ids(in.at, in.length, true, buffer, capacity, needed); break;
    case OWN_IDS: code = rocktray_ids(in.at, in.length, false, buffer, capacity, needed); break;
    case HTML_TEXT: code = rocktray_html_text(in.at, in.length, false, buffer, capacity, needed); break;
    case HTML_LINKS: code = rocktray_html_text(in.at, in.length, true, buffer, capacity, needed); break;
    case READABLE: code = rocktray_readable_text(in.at, in.length, false, buffer, capacity, needed); break;
    case BOUNCED_ID: code = rocktray_bounced_id(in.at, in.length, buffer, capacity, needed); break;
    case UNQUOTED: code = rocktray_unquoted(in.at, in.length, buffer, capacity, needed); break;
    case VALUE: code = rocktray_value(in.at, in.length, buffer, capacity, needed); break;
    case FILE_NAME:
        code = rocktray_file_name(in.at, in.length, name.at, name.length, buffer, capacity, needed);
        break;
    case SAFE_NAME: code = rocktray_safe_name(in.at, in.length, buffer, capacity, needed); break;
    case BODY:
    case DAMAGED_BODY:
        code = rocktray_body(test->number, in.at, in.length, buffer, capacity, needed, &is_damaged);
        break;
    case BODY_TEXT:
        code = rocktray_body_text(test->number, in.at, in.length, name.at, name.length, buffer, capacity, needed,
                                  &is_damaged);
        break;
    case BODY_CHARSET:
        code = rocktray_body_charset(test->number, in.at, in.length, name.at, name.length, buffer, capacity, needed);
        break;
    case REASON: code = rocktray_reason((uint32_t)test->number, buffer, capacity, needed); break;
    }
    is_library = 0;
    if (is_body && code == ROCKTRAY_NO_MEMORY && memcmp(&before, &is_damaged, 1) != 0)
        return 1000;
    if (is_body && code <= ROCKTRAY_TOO_SHORT && test->result.at && is_damaged != (test->kind == DAMAGED_BODY))
        return 1001;
    return code;
}

static atomic_long passed, failed;

static void count(int is_right, const char *what, size_t which)
{
    if (is_right) {
        passed++;
    } else {
        failed++;
        printf("FAILED %s of test %zu\n", what, which);
    }
}

/* A buffer in a block of its own, so that the sanitizer sees each access beyond it. It is filled, and the bytes after
 * the result must not change. */
static uint8_t *filled_buffer(size_t capacity)
{
    uint8_t *buffer = malloc(capacity ? capacity : 1);
    memset(buffer, 0xA5, capacity);
    return buffer;
}

static int is_filled(const uint8_t *buffer, size_t from, size_t to)
{
    for (size_t i = from; i < to; i++)
        if (buffer[i] != 0xA5)
            return 0;
    return 1;
}

/* Makes one call with a buffer of that capacity, and checks the code, *needed, the result, and that nothing else
 * changed. */
static int goes(const struct test *test, size_t capacity, uint32_t code, size_t whole)
{
    uint8_t *buffer = capacity ? filled_buffer(capacity) : NULL;
    size_t needed = 77;
    int is_right;
    blocks = 0;
    is_right = call(test, buffer, capacity, &needed) == code && blocks == 0;
    if (code == ROCKTRAY_DONE)
        is_right = is_right && needed == whole && is_filled(buffer, whole, capacity)
            && (test->kind == JSON || !whole || memcmp(buffer, test->result.at, whole) == 0);
    else
        is_right = is_right && needed == (code == ROCKTRAY_TOO_SHORT ? whole : 77) && is_filled(buffer, 0, capacity);
    free(buffer);
    return is_right;
}

static void check_buffers(const struct test *test, size_t which)
{
    size_t whole = test->result.length;
    if (test->code != ROCKTRAY_DONE) {
        count(goes(test, 100, test->code, 0), "a refusal", which);
        count(goes(test, 0, test->code, 0), "a refusal without a buffer", which);
        return;
    }
    if (test->kind == JSON) {
        call(test, NULL, 0, &whole);
        count(whole > 0, "the length", which);
    }
    count(goes(test, whole, ROCKTRAY_DONE, whole), "the right buffer", which);
    count(goes(test, whole + 100, ROCKTRAY_DONE, whole), "a larger buffer", which);
    if (whole) {
        count(goes(test, whole - 1, ROCKTRAY_TOO_SHORT, whole), "a buffer one byte short", which);
        count(goes(test, 0, ROCKTRAY_TOO_SHORT, whole), "no buffer", which);
    }
}

/* The Nth allocation is refused, for each N, alone and with all after it. */
static void check_memory(const struct test *test, size_t which)
{
    uint8_t *buffer = filled_buffer(4096);
    long all;
    size_t needed;
    calls = 0;
    call(test, buffer, 4096, &needed);
    all = calls;
    for (refuses_all_after = 0; refuses_all_after < 2; refuses_all_after++) {
        for (long at = 1; at <= all; at++) {
            uint32_t code;
            memset(buffer, 0xA5, 4096);
            needed = 77;
            calls = blocks = 0;
            refuse_at = at;
            code = call(test, buffer, 4096, &needed);
            refuse_at = 0;
            count(code == ROCKTRAY_NO_MEMORY && needed == 77 && is_filled(buffer, 0, 4096) && blocks == 0,
                  "a refused allocation", which);
        }
    }
    free(buffer);
}

static void check_date(const char *text, uint32_t code, int64_t seconds, int64_t offset, bool is_known)
{
    int64_t given = -77, given_offset = -78;
    bool is_zone_known;
    uint32_t returned;
    memset(&is_zone_known, 0xA5, sizeof is_zone_known); /* it need not be set */
    returned = rocktray_date((const uint8_t *)text, text ? strlen(text) : 0, &given, &is_zone_known);
    count(returned == code && given == (code == ROCKTRAY_DONE ? seconds : -77) && is_zone_known == is_known,
          text ? text : "no date", 0);
    given = -77;
    memset(&is_zone_known, 0xA5, sizeof is_zone_known);
    returned = rocktray_date_and_offset((const uint8_t *)text, text ? strlen(text) : 0, &given, &given_offset,
                                        &is_zone_known);
    count(returned == code && given == (code == ROCKTRAY_DONE ? seconds : -77)
              && given_offset == (code == ROCKTRAY_DONE ? offset : -78) && is_zone_known == is_known,
          text ? text : "no date and offset", 0);
}

/* RFC 5322, section 3.3 and appendix A; the seconds are those of GNU date */
static void check_dates(void)
{
    check_date("Fri, 21 Nov 1997 09:55:06 -0600", ROCKTRAY_DONE, 880127706, -21600, true);
    check_date("1 Jan 1970 05:45 +0545", ROCKTRAY_DONE, 0, 20700, true);
    check_date("1 Jan 1970 00:00 XYZ", ROCKTRAY_DONE, 0, 0, false);
    check_date("31 Dec 1969 23:59:59 +0000", ROCKTRAY_DONE, -1, 0, true);
    check_date(NULL, ROCKTRAY_DATE_DAY, 0, 0, false);
    check_date("30 Feb 2012 20:57 +0200", ROCKTRAY_DATE_DAY, 0, 0, false);
    check_date("1 Foo 2012 20:57 +0200", ROCKTRAY_DATE_MONTH, 0, 0, false);
    check_date("1 Jan 1", ROCKTRAY_DATE_YEAR, 0, 0, false);
    check_date("1 Jan 2012 x", ROCKTRAY_DATE_TIME, 0, 0, false);
    check_date("1 Jan 2012 20:57 +9", ROCKTRAY_DONE, 1325419020, 32400, true);
    check_date("1 Jan 2012 20:57 +02:00 x", ROCKTRAY_DONE, 1325444220, 7200, true);
    check_date("2003-02-17T07:45:56Z", ROCKTRAY_DONE, 1045467956, 0, true);
    check_date("Sat Mar 24 21:23:03 EDT 2007", ROCKTRAY_DONE, 1174785783, -14400, true);
    check_date("\xff", ROCKTRAY_NOT_UTF8, 0, 0, false);
}

/* RFC 4155, appendix A */
static void check_mailboxes(void)
{
    static const char box[] = "junk\n\nFrom a Fri Jul  8 12:08:34 2011\nSubject: 1\n\none\n\n"
                              "From b Fri Jul  8 12:09:34 2011\n\ntwo";
    static const char *const mails[] = { "Subject: 1\n\none\n", "\ntwo" };
    const uint8_t *at = (const uint8_t *)box;
    size_t left = sizeof box - 1, start = 77, end = 78, next = 79;
    for (int i = 0; i < 2; i++) {
        uint32_t code = rocktray_next_mail(at, left, false, &start, &end, &next);
        count(code == ROCKTRAY_DONE && end - start == strlen(mails[i]) && memcmp(at + start, mails[i], end - start) == 0,
              "a mail of a mailbox", (size_t)i);
        if (code != ROCKTRAY_DONE)
            return;
        at += next;
        left -= next;
    }
    start = 77, end = 78, next = 79;
    count(left == 0 && rocktray_next_mail(at, left, false, &start, &end, &next) == ROCKTRAY_ABSENT && start == 77
              && end == 78 && next == 79,
          "the end of a mailbox", 0);
    count(rocktray_next_mail(NULL, 0, true, &start, &end, &next) == ROCKTRAY_ABSENT && start == 77, "no bytes", 0);
    count(rocktray_next_mail("Subject: 1\n\none\n", 16, false, &start, &end, &next) == ROCKTRAY_NO_MAILBOX && start == 77
              && end == 78 && next == 79,
          "a mail, which is no mailbox", 0);
}

/* A mail with that many levels of parts: one that is deeper is kept as plain text. */
static void check_levels(void)
{
    for (int levels = 100; levels <= 101; levels++) {
        char *mail = calloc(1, 10000);
        size_t needed = 77;
        uint32_t code;
        for (int i = 0; i < levels; i++)
            sprintf(mail + strlen(mail), "Content-Type: multipart/mixed; boundary=b%03d\n\n--b%03d\n", i, i);
        strcat(mail, "\nx");
        code = rocktray_json((uint8_t *)mail, strlen(mail), NULL, 0, &needed);
        count(code == ROCKTRAY_TOO_SHORT && needed > 77, "levels", (size_t)levels);
        free(mail);
    }
}

/* Records. */

/* The records of a mail, in arrays of their own. */
struct records {
    struct rocktray_part *parts;
    struct rocktray_header_record *headers;
    size_t parts_length, headers_length;
};

static uint32_t fill(struct bytes mail, size_t limit, struct records *records)
{
    uint32_t code;
    is_library = 1;
    code = rocktray_parts(mail.at, mail.length, limit, records->parts, records->parts_length, &records->parts_length,
                          records->headers, records->headers_length, &records->headers_length);
    is_library = 0;
    return code;
}

/* The records of a mail, or the code of its refusal. */
static uint32_t records_of(struct bytes mail, struct records *records)
{
    uint32_t code;
    memset(records, 0, sizeof *records);
    code = fill(mail, SIZE_MAX, records);
    if (code != ROCKTRAY_TOO_SHORT)
        return code;
    records->parts = malloc(records->parts_length * sizeof *records->parts);
    records->headers = malloc(records->headers_length * sizeof *records->headers + 1);
    return fill(mail, SIZE_MAX, records);
}

static void free_records(struct records *records)
{
    free(records->parts);
    free(records->headers);
}

#define TREE "Content-Type: multipart/mixed; boundary=b\nSubject: x\n\npre\n--b\n\none\n--b\n" \
             "Content-Type: multipart/mixed; boundary=c\n\n--c\n" \
             "Content-Disposition: attachment; filename=f\nContent-Transfer-Encoding: base64\n\nZm9v\n--c--\n--b--\n"

/* One call with these capacities: its code, and that all is unchanged after any code but ROCKTRAY_DONE. */
static int fills(struct bytes mail, size_t limit, size_t parts, size_t headers, uint32_t code, size_t all_parts,
                 size_t all_headers)
{
    struct records records = { (void *)filled_buffer(parts * sizeof(struct rocktray_part)),
                               (void *)filled_buffer(headers * sizeof(struct rocktray_header_record)), parts, headers };
    const int is_set = code <= ROCKTRAY_TOO_SHORT;
    int is_right = fill(mail, limit, &records) == code && records.parts_length == (is_set ? all_parts : parts)
        && records.headers_length == (is_set ? all_headers : headers);
    if (code != ROCKTRAY_DONE)
        is_right = is_right && is_filled((uint8_t *)records.parts, 0, parts * sizeof(struct rocktray_part))
            && is_filled((uint8_t *)records.headers, 0, headers * sizeof(struct rocktray_header_record));
    free_records(&records);
    return is_right;
}

static void check_fields(void)
{
    static const uint64_t wanted[4][11] = {
        { ROCKTRAY_NONE, 0, 0, 221, 54, 57, 0, 2, 0, 0, 0 },
        { 0, 1, 62, 66, 63, 66, 2, 0, 0, 0, ROCKTRAY_IS_LEAF | ROCKTRAY_IS_TEXT },
        { 0, 1, 71, 214, 114, 114, 2, 1, 0, 0, 0 },
        { 2, 2, 118, 208, 0, 0, 3, 2, ROCKTRAY_BASE64, ROCKTRAY_ATTACHED,
          ROCKTRAY_IS_LEAF | ROCKTRAY_IS_ATTACHMENT | ROCKTRAY_IS_EXTRACTED },
    };
    const struct bytes mail = BYTES(TREE);
    struct records records;
    count(records_of(mail, &records) == ROCKTRAY_DONE && records.parts_length == 4 && records.headers_length == 5,
          "the number of records", 0);
    for (size_t i = 0; i < 4; i++) {
        const struct rocktray_part *part = &records.parts[i];
        count(part->parent == wanted[i][0] && part->level == wanted[i][1] && part->first_header == wanted[i][6]
                  && part->header_count == wanted[i][7] && part->encoding == wanted[i][8]
                  && part->disposition == wanted[i][9] && part->flags == wanted[i][10],
              "the record of a part", i);
    }
    count(memcmp(mail.at + records.parts[3].body_start, "Zm9v", records.parts[3].body_end - records.parts[3].body_start)
              == 0 && records.parts[0].start == 0 && records.parts[0].end == mail.length
              && memcmp(mail.at + records.parts[1].start, "\none", 4) == 0,
          "the ranges of parts", 0);
    count(memcmp(mail.at + records.headers[3].start, "Content-Disposition", records.headers[3].key_end
                 - records.headers[3].start) == 0
              && memcmp(mail.at + records.headers[3].value_start, "attachment; filename=f",
                        records.headers[3].value_end - records.headers[3].value_start) == 0
              && records.headers[3].end == records.headers[4].start,
          "the ranges of headers", 0);
    free_records(&records);
}

/* Refuses that allocation of the next call. */
static void begin_refusing(long at)
{
    calls = blocks = 0;
    refuse_at = at;
    is_library = 1;
}

/* Ends this. Whether the call made fewer allocations. */
static bool is_all_given(long at)
{
    is_library = 0;
    refuse_at = 0;
    return calls < at;
}

/* RFC 5322, section 4.5: blanks before a colon are not of the name. */
static void check_blanks(void)
{
    const struct bytes mail = BYTES("Subject \t: x\n\n"), name = BYTES("subject");
    struct rocktray_header_record header;
    struct records records;
    size_t needed = 77;
    char value[2];
    count(rocktray_headers(mail.at, mail.length, 1, &header, 1, &needed) == ROCKTRAY_DONE && needed == 1
              && header.start == 0 && header.key_end == 7 && header.value_start == 11 && header.value_end == 12
              && header.end == 13,
          "a block with blanks before a colon", 0);
    count(records_of(mail, &records) == ROCKTRAY_DONE && records.headers_length == 1
              && memcmp(records.headers, &header, sizeof header) == 0,
          "a mail with blanks before a colon", 0);
    free_records(&records);
    count(rocktray_header(mail.at, mail.length, name.at, name.length, 0, value, sizeof value, &needed) == ROCKTRAY_DONE
              && needed == 1 && value[0] == 'x',
          "a header with blanks before its colon", 0);
}

static void check_records(void)
{
    const struct bytes mail = BYTES(TREE), nothing = NOTHING, space = BYTES(" x"), block = BYTES("A: b\n\nx");
    struct rocktray_header_record headers[2];
    size_t needed = 77;
    struct records records;
    long all;
    check_fields();
    check_blanks();
    count(fills(mail, SIZE_MAX, 4, 5, ROCKTRAY_DONE, 4, 5), "the right arrays", 0);
    count(fills(mail, SIZE_MAX, 9, 9, ROCKTRAY_DONE, 4, 5), "larger arrays", 0);
    count(fills(mail, SIZE_MAX, 3, 5, ROCKTRAY_TOO_SHORT, 4, 5), "too few parts", 0);
    count(fills(mail, SIZE_MAX, 4, 4, ROCKTRAY_TOO_SHORT, 4, 5), "too few headers", 0);
    count(fills(mail, 9, 4, 5, ROCKTRAY_DONE, 4, 5), "the limit", 0);
    count(fills(mail, 8, 4, 5, ROCKTRAY_TOO_MANY, 4, 5), "more than the limit", 0);
    count(fills(mail, 0, 0, 0, ROCKTRAY_TOO_MANY, 4, 5), "more than none", 0);
    count(fills(space, SIZE_MAX, 4, 5, ROCKTRAY_DONE, 1, 0), "a mail without headers that can be read", 0);
    count(fills(nothing, SIZE_MAX, 1, 0, ROCKTRAY_DONE, 1, 0), "no mail", 0);
    count(rocktray_headers(block.at, block.length, 1, headers, 2, &needed) == ROCKTRAY_DONE && needed == 1
              && headers[0].start == 0 && headers[0].key_end == 1 && headers[0].value_start == 3
              && headers[0].value_end == 4 && headers[0].end == 5,
          "a block", 0);
    needed = 77;
    count(rocktray_headers(block.at, block.length, 0, headers, 2, &needed) == ROCKTRAY_TOO_MANY && needed == 77,
          "a block with more than the limit", 0);
    count(rocktray_headers(block.at, block.length, 1, NULL, 0, &needed) == ROCKTRAY_TOO_SHORT && needed == 1,
          "a block without an array", 0);
    count(rocktray_headers(space.at, space.length, 1, headers, 2, &needed) == ROCKTRAY_LEADING_SPACE, "no block", 0);
    for (long at = 1; at < 1000; at++) {
        uint32_t code;
        needed = 77;
        begin_refusing(at);
        code = rocktray_headers(block.at, block.length, 1, headers, 2, &needed);
        if (is_all_given(at))
            break;
        count(code == ROCKTRAY_NO_MEMORY && needed == 77 && blocks == 0, "a block without memory", (size_t)at);
    }
    calls = 0;
    records_of(mail, &records);
    free_records(&records);
    all = calls;
    for (long at = 1; at <= all / 2; at++) {
        calls = blocks = 0;
        refuse_at = at;
        count(fills(mail, SIZE_MAX, 9, 9, ROCKTRAY_NO_MEMORY, 9, 9) && blocks == 0, "a refused allocation of records",
              (size_t)at);
        refuse_at = 0;
    }
}

/* RFC 2045, section 5 */
static void check_type(void)
{
    const struct bytes value = BYTES("Text/HTML; Charset=koi8-r; a=\"b c\"");
    static const char wanted[] = "text/htmlkoi8-rab ccharsetkoi8-r";
    static const uint64_t ends_wanted[] = { 9, 15, 16, 19, 26, 32 };
    uint64_t ends[6];
    char strings[40];
    size_t ends_needed = 77, needed = 77;
    uint32_t code = rocktray_type(value.at, value.length, ends, 6, &ends_needed, strings, sizeof strings, &needed);
    count(code == ROCKTRAY_DONE && ends_needed == 6 && needed == 32 && memcmp(strings, wanted, 32) == 0
              && memcmp(ends, ends_wanted, sizeof ends) == 0,
          "a type", 0);
    ends[0] = 5, strings[0] = 'x', ends_needed = needed = 77;
    code = rocktray_type(value.at, value.length, ends, 5, &ends_needed, strings, sizeof strings, &needed);
    count(code == ROCKTRAY_TOO_SHORT && ends_needed == 6 && needed == 32 && ends[0] == 5 && strings[0] == 'x',
          "a type with one end too many", 0);
    code = rocktray_type(value.at, value.length, ends, 6, &ends_needed, strings, 31, &needed);
    count(code == ROCKTRAY_TOO_SHORT && ends[0] == 5 && strings[0] == 'x', "a type that is too long", 0);
    for (long at = 1; at < 1000; at++) {
        ends[0] = 5, strings[0] = 'x', ends_needed = needed = 77;
        begin_refusing(at);
        code = rocktray_type(value.at, value.length, ends, 6, &ends_needed, strings, sizeof strings, &needed);
        if (is_all_given(at))
            break;
        count(code == ROCKTRAY_NO_MEMORY && ends_needed == 77 && needed == 77 && ends[0] == 5 && strings[0] == 'x'
                  && blocks == 0,
              "a type without memory", (size_t)at);
    }
}

/* RFC 5322, section 3.4 */
static void check_addresses(void)
{
    const struct bytes value = BYTES("Ann <a@b>, team: \"x y\"@c;, junk");
    static const char wanted[] = "Anna@bteam\"x y\"@cjunk";
    static const uint64_t records_wanted[4][6] = {
        { ROCKTRAY_MAILBOX, ROCKTRAY_NONE, 0, 3, 3, 6 },
        { ROCKTRAY_GROUP, ROCKTRAY_NONE, 6, 10, 10, 10 },
        { ROCKTRAY_MAILBOX, 1, 10, 10, 10, 17 },
        { ROCKTRAY_UNKNOWN, ROCKTRAY_NONE, 17, 17, 17, 22 },
    };
    struct rocktray_address found[4];
    char strings[40];
    size_t records_needed = 77, needed = 77;
    uint32_t code = rocktray_addresses(value.at, value.length, found, 4, &records_needed, strings, sizeof strings,
                                       &needed);
    count(code == ROCKTRAY_DONE && records_needed == 4 && needed == 22 && memcmp(strings, wanted, 17) == 0,
          "addresses", 0);
    for (size_t i = 0; i < 4 && code == ROCKTRAY_DONE; i++)
        count(memcmp(&found[i], records_wanted[i], sizeof found[i]) == 0, "the record of an address", i);
    code = rocktray_addresses(value.at, value.length, found, 3, &records_needed, strings, sizeof strings, &needed);
    count(code == ROCKTRAY_TOO_SHORT && records_needed == 4 && needed == 22, "one address too many", 0);
    for (long at = 1; at < 1000; at++) {
        records_needed = needed = 77;
        begin_refusing(at);
        code = rocktray_addresses(value.at, value.length, found, 4, &records_needed, strings, sizeof strings, &needed);
        if (is_all_given(at))
            break;
        count(code == ROCKTRAY_NO_MEMORY && records_needed == 77 && needed == 77 && blocks == 0,
              "addresses without memory", (size_t)at);
    }
}

/* RFC 3464, section 2.1 */
static void check_report(void)
{
    const struct bytes part = BYTES("Content-Type: message/delivery-status\n\nReporting-MTA: dns; a\n\n"
                                    "Action:  failed \nStatus: 5.0.0\n");
    const struct bytes text = BYTES("Content-Type: text/plain\n\nA: b\n"), space = BYTES(" x");
    static const char wanted[] = "Reporting-MTAdns; aActionfailedStatus5.0.0";
    static const uint64_t records_wanted[3][5] = {
        { 0, 0, 13, 13, 19 }, { 1, 19, 25, 25, 31 }, { 1, 31, 37, 37, 42 },
    };
    struct rocktray_field found[3];
    char strings[50];
    size_t fields_needed = 77, needed = 77;
    uint32_t code = rocktray_report(part.at, part.length, found, 3, &fields_needed, strings, sizeof strings, &needed);
    count(code == ROCKTRAY_DONE && fields_needed == 3 && needed == 42 && memcmp(strings, wanted, 42) == 0
              && memcmp(found, records_wanted, sizeof found) == 0,
          "a report", 0);
    code = rocktray_report(part.at, part.length, found, 2, &fields_needed, strings, sizeof strings, &needed);
    count(code == ROCKTRAY_TOO_SHORT && fields_needed == 3 && needed == 42, "one field too many", 0);
    fields_needed = needed = 77;
    code = rocktray_report(text.at, text.length, found, 3, &fields_needed, strings, sizeof strings, &needed);
    count(code == ROCKTRAY_ABSENT && fields_needed == 77 && needed == 77, "a part that is no report", 0);
    code = rocktray_report(space.at, space.length, found, 3, &fields_needed, strings, sizeof strings, &needed);
    count(code == ROCKTRAY_ABSENT && fields_needed == 77 && needed == 77, "a part without headers that can be read", 0);
    for (refuse_at = 1; refuse_at < 1000; refuse_at++) {
        calls = 0;
        is_library = 1;
        code = rocktray_report(part.at, part.length, found, 3, &fields_needed, strings, sizeof strings, &needed);
        is_library = 0;
        if (calls < refuse_at)
            break;
        count(code == ROCKTRAY_NO_MEMORY && fields_needed == 77 && needed == 77 && blocks == 0,
              "a report without memory", (size_t)refuse_at);
    }
    refuse_at = 0;
    count(code == ROCKTRAY_DONE, "a report with memory", 0);
}

/* RFC 3464, section 2.3: fields that are missing, one that is empty, and one that is encoded */
static void check_recipients(void)
{
    const struct bytes mail = BYTES(REPORT "Reporting-MTA: dns; mx\n\n"
                                    "Final-Recipient: rfc822; \"a\"@b\nAction: failed\nStatus:\n\n"
                                    "Final-Recipient: rfc822; c@d\nDiagnostic-Code: smtp; =?gb2312?b?xOO6ww==?=\n\n--b--\n");
    const struct bytes text = BYTES("Subject: no report\n\n"), space = BYTES(" x");
    static const char wanted[] = "\"a\"@bfailedc@d\xe4\xbd\xa0\xe5\xa5\xbd";
    static const uint64_t no = ROCKTRAY_NONE;
    const uint64_t records_wanted[2][10] = {
        { 0, 5, no, no, 5, 11, 11, 11, no, no }, { 11, 14, no, no, no, no, no, no, 14, 20 },
    };
    struct rocktray_recipient found[2];
    char strings[30];
    size_t found_needed = 77, needed = 77;
    uint32_t code = rocktray_recipients(mail.at, mail.length, found, 2, &found_needed, strings, sizeof strings, &needed);
    count(code == ROCKTRAY_DONE && found_needed == 2 && needed == 20 && memcmp(strings, wanted, 20) == 0
              && memcmp(found, records_wanted, sizeof found) == 0,
          "recipients", 0);
    strings[0] = 'x', found[0].final_start = 5;
    code = rocktray_recipients(mail.at, mail.length, found, 1, &found_needed, strings, sizeof strings, &needed);
    count(code == ROCKTRAY_TOO_SHORT && found_needed == 2 && needed == 20 && strings[0] == 'x' && found[0].final_start == 5,
          "one recipient too many", 0);
    code = rocktray_recipients(mail.at, mail.length, found, 2, &found_needed, strings, 19, &needed);
    count(code == ROCKTRAY_TOO_SHORT && strings[0] == 'x' && found[0].final_start == 5, "recipients that are too long", 0);
    code = rocktray_recipients(text.at, text.length, NULL, 0, &found_needed, NULL, 0, &needed);
    count(code == ROCKTRAY_DONE && found_needed == 0 && needed == 0, "a mail that is no report", 0);
    code = rocktray_recipients(space.at, space.length, found, 2, &found_needed, strings, sizeof strings, &needed);
    count(code == ROCKTRAY_DONE && found_needed == 0 && needed == 0, "recipients without headers that can be read", 0);
    code = rocktray_recipients(NULL, 0, NULL, 0, &found_needed, NULL, 0, &needed);
    count(code == ROCKTRAY_DONE && found_needed == 0 && needed == 0, "recipients of an empty mail", 0);
    found_needed = needed = 77;
    for (long at = 1; at < 1000; at++) {
        begin_refusing(at);
        code = rocktray_recipients(mail.at, mail.length, found, 2, &found_needed, strings, sizeof strings, &needed);
        if (is_all_given(at))
            break;
        count(code == ROCKTRAY_NO_MEMORY && found_needed == 77 && needed == 77 && blocks == 0,
              "recipients without memory", (size_t)at);
    }
}

/* docs/FINDINGS.md: a NUL, and a header that occurs twice */
static void check_findings(void)
{
    const struct bytes mail = BYTES("A: b\0\nSubject: a\nSubject: b\n\nHi\n");
    const struct bytes none = BYTES("A: b\n\nHi\n"), space = BYTES(" A: b\n\n"), lone = BYTES("A: b\n\rB");
    static const char first[] = "nul1The mail contains a NUL byte: readers in C may end the line or the mail there.";
    static const uint64_t first_wanted[9] = { ROCKTRAY_CLASS_STRUCTURE, 4, 5, 0, 3, 3, 4, 4, sizeof first - 1 };
    struct rocktray_finding found[2];
    char strings[300];
    size_t found_needed = 77, needed = 77, length;
    uint32_t code = rocktray_findings(mail.at, mail.length, found, 2, &found_needed, strings, sizeof strings, &needed);
    count(code == ROCKTRAY_DONE && found_needed == 2 && memcmp(&found[0], first_wanted, sizeof found[0]) == 0
              && memcmp(strings, first, sizeof first - 1) == 0,
          "the first finding", 0);
    count(found[1].finding_class == ROCKTRAY_CLASS_STRUCTURE && found[1].start == 17 && found[1].end == 28
              && found[1].name_start == sizeof first - 1 && found[1].sentence_end == needed
              && memcmp(strings + found[1].name_start, "duplicate1", 10) == 0,
          "the second finding", 0);
    length = needed, strings[0] = 'x', found[0].start = 5;
    code = rocktray_findings(mail.at, mail.length, found, 1, &found_needed, strings, sizeof strings, &needed);
    count(code == ROCKTRAY_TOO_SHORT && found_needed == 2 && needed == length && strings[0] == 'x' && found[0].start == 5,
          "one finding too many", 0);
    code = rocktray_findings(mail.at, mail.length, found, 2, &found_needed, strings, length - 1, &needed);
    count(code == ROCKTRAY_TOO_SHORT && strings[0] == 'x' && found[0].start == 5, "findings that are too long", 0);
    code = rocktray_findings(none.at, none.length, NULL, 0, &found_needed, NULL, 0, &needed);
    count(code == ROCKTRAY_DONE && found_needed == 0 && needed == 0, "a mail without findings", 0);
    found_needed = needed = 77;
    code = rocktray_findings(space.at, space.length, found, 2, &found_needed, strings, sizeof strings, &needed);
    count(code == ROCKTRAY_LEADING_SPACE && found_needed == 77 && needed == 77, "findings of a mail with a space", 0);
    code = rocktray_findings(lone.at, lone.length, found, 2, &found_needed, strings, sizeof strings, &needed);
    count(code == ROCKTRAY_LONE_CARRIAGE_RETURN && strings[0] == 'x', "findings of a mail with a lone CR", 0);
    for (long at = 1; at < 1000; at++) {
        begin_refusing(at);
        code = rocktray_findings(mail.at, mail.length, found, 2, &found_needed, strings, sizeof strings, &needed);
        if (is_all_given(at))
            break;
        count(code == ROCKTRAY_NO_MEMORY && found_needed == 77 && needed == 77 && blocks == 0, "findings without memory",
              (size_t)at);
    }
}

/* POSIX.1, uuencode: a file whose name is not in UTF-8, and one that is cut off */
static void check_text_files(void)
{
    const struct bytes text = BYTES("begin 644 caf\xe9.txt\n#0V%T\n`\nend\nbegin 644 b\n#0V%T\n"), none = BYTES("begin here\n");
    static const char wanted[] = "caf\xc3\xa9.txtCatbCat";
    static const uint64_t records_wanted[2][7] = { { 0, 31, 0, 9, 9, 12, 0 }, { 31, 49, 12, 13, 13, 16, 1 } };
    struct rocktray_text_file found[2];
    char strings[30];
    size_t found_needed = 77, needed = 77;
    uint32_t code = rocktray_text_files(text.at, text.length, 2, found, 2, &found_needed, strings, sizeof strings, &needed);
    count(code == ROCKTRAY_DONE && found_needed == 2 && needed == 16 && memcmp(strings, wanted, 16) == 0
              && memcmp(found, records_wanted, sizeof found) == 0,
          "files in a text", 0);
    code = rocktray_text_files(text.at, text.length, 1, found, 2, &found_needed, strings, sizeof strings, &needed);
    count(code == ROCKTRAY_DONE && found_needed == 1 && needed == 12, "the limit on files in a text", 0);
    strings[0] = 'x', found[0].name_end = 5;
    code = rocktray_text_files(text.at, text.length, 2, found, 1, &found_needed, strings, sizeof strings, &needed);
    count(code == ROCKTRAY_TOO_SHORT && found_needed == 2 && needed == 16 && strings[0] == 'x' && found[0].name_end == 5,
          "one file too many", 0);
    code = rocktray_text_files(text.at, text.length, 2, found, 2, &found_needed, strings, 15, &needed);
    count(code == ROCKTRAY_TOO_SHORT && strings[0] == 'x' && found[0].name_end == 5, "files that are too long", 0);
    code = rocktray_text_files(none.at, none.length, SIZE_MAX, NULL, 0, &found_needed, NULL, 0, &needed);
    count(code == ROCKTRAY_DONE && found_needed == 0 && needed == 0, "a text without files", 0);
    found_needed = needed = 77;
    for (long at = 1; at < 1000; at++) {
        begin_refusing(at);
        code = rocktray_text_files(text.at, text.length, 2, found, 2, &found_needed, strings, sizeof strings, &needed);
        if (is_all_given(at))
            break;
        count(code == ROCKTRAY_NO_MEMORY && found_needed == 77 && needed == 77 && blocks == 0,
              "files in a text without memory", (size_t)at);
    }
}

/* The version of the library as a text. */
static const char *version_text(void)
{
    static char text[40];
    uint32_t version = rocktray_version();
    snprintf(text, sizeof text, "%u.%u.%u", version / 10000, version / 100 % 100, version % 100);
    return text;
}

static int check_cases(void)
{
    for (size_t i = 0; i < TESTS; i++) {
        check_buffers(&tests[i], i);
        check_memory(&tests[i], i);
    }
    count(rocktray_version() == ROCKTRAY_VERSION_NUMBER && strcmp(version_text(), ROCKTRAY_VERSION) == 0,
          "the version", 0);
    check_dates();
    check_mailboxes();
    check_levels();
    check_records();
    check_type();
    check_addresses();
    check_report();
    check_recipients();
    check_findings();
    check_text_files();
    return 0;
}

/* Files. */

static struct bytes read_file(const char *name)
{
    FILE *file = fopen(name, "rb");
    struct bytes read = NOTHING;
    uint8_t *all;
    if (!file || fseek(file, 0, SEEK_END)) {
        perror(name);
        exit(1);
    }
    read.length = (size_t)ftell(file);
    rewind(file);
    all = malloc(read.length ? read.length : 1);
    if (fread(all, 1, read.length, file) != read.length) {
        perror(name);
        exit(1);
    }
    fclose(file);
    read.at = all;
    return read;
}

/* The result of a call, in a buffer of its own. */
static struct bytes result_of(const struct test *test, uint32_t *code)
{
    struct bytes result = NOTHING;
    uint8_t *buffer = NULL;
    *code = call(test, NULL, 0, &result.length);
    if (*code == ROCKTRAY_TOO_SHORT) {
        buffer = malloc(result.length);
        *code = call(test, buffer, result.length, &result.length);
    }
    result.at = buffer;
    return result;
}

static int write_lines(char **names)
{
    for (; *names; names++) {
        struct test test = { JSON, read_file(*names), NOTHING, 0, 0, NOTHING };
        uint32_t code;
        struct bytes line = result_of(&test, &code);
        if (code == ROCKTRAY_DONE) {
            fwrite(line.at, 1, line.length, stdout);
        } else {
            struct test reason = { REASON, NOTHING, NOTHING, code, 0, NOTHING };
            struct bytes text = result_of(&reason, &code);
            printf("refused %zu %.*s\n", test.input.length, (int)text.length, (const char *)text.at);
            free((void *)text.at);
        }
        free((void *)line.at);
        free((void *)test.input.at);
    }
    return 0;
}

/* Writes the result of a call in hexadecimal digits, or its code. */
static void print_result(const char *name, enum kind kind, struct bytes input, struct bytes other, size_t number)
{
    struct test test = { kind, input, other, number, 0, NOTHING };
    uint32_t code;
    struct bytes result = result_of(&test, &code);
    printf(" %s=", name);
    if (code != ROCKTRAY_DONE)
        printf("!%u", code);
    for (size_t i = 0; i < result.length && code == ROCKTRAY_DONE; i++)
        printf("%02x", result.at[i]);
    free((void *)result.at);
}

static struct bytes range(struct bytes mail, uint64_t start, uint64_t end)
{
    struct bytes bytes = { mail.at + start, end - start };
    return bytes;
}

/* The raw value of the first header of a part with this name. */
static struct bytes named(struct bytes mail, const struct records *records, const struct rocktray_part *part,
                          const char *name)
{
    for (uint64_t i = part->first_header; i < part->first_header + part->header_count; i++) {
        const struct rocktray_header_record *header = &records->headers[i];
        if (header->key_end - header->start == strlen(name)
            && strncasecmp((const char *)mail.at + header->start, name, strlen(name)) == 0)
            return range(mail, header->value_start, header->value_end);
    }
    return range(mail, 0, 0);
}

static void print_bytes(const char *at, uint64_t start, uint64_t end)
{
    printf(":");
    for (uint64_t i = start; i < end; i++)
        printf("%02x", (uint8_t)at[i]);
}

/* Writes the fields of a report: the index of the block of each, its name and its value. */
static void print_report(struct bytes part)
{
    size_t fields_needed = 0, needed = 0;
    struct rocktray_field *fields = NULL;
    char *strings = NULL;
    uint32_t code = rocktray_report(part.at, part.length, NULL, 0, &fields_needed, NULL, 0, &needed);
    if (code == ROCKTRAY_TOO_SHORT) {
        fields = malloc((fields_needed + 1) * sizeof *fields);
        strings = malloc(needed + 1);
        code = rocktray_report(part.at, part.length, fields, fields_needed, &fields_needed, strings, needed, &needed);
    }
    printf(" report=");
    if (code != ROCKTRAY_DONE)
        printf("!%u", code);
    for (size_t i = 0; code == ROCKTRAY_DONE && i < fields_needed; i++) {
        printf("%s%llu", i ? "," : "", (unsigned long long)fields[i].block);
        print_bytes(strings, fields[i].name_start, fields[i].name_end);
        print_bytes(strings, fields[i].value_start, fields[i].value_end);
    }
    free(fields);
    free(strings);
}

/* Writes a text, or `-` if it is missing. */
static void print_text(const char *strings, uint64_t start, uint64_t end)
{
    if (start == ROCKTRAY_NONE)
        printf(end == ROCKTRAY_NONE ? ":-" : ":!");
    else
        print_bytes(strings, start, end);
}

/* Writes the recipients that a mail reports: the texts of each. */
static void print_recipients(struct bytes mail)
{
    size_t found_needed = 0, needed = 0;
    struct rocktray_recipient *found = NULL;
    char *strings = NULL;
    uint32_t code = rocktray_recipients(mail.at, mail.length, NULL, 0, &found_needed, NULL, 0, &needed);
    if (code == ROCKTRAY_TOO_SHORT) {
        found = malloc((found_needed + 1) * sizeof *found);
        strings = malloc(needed + 1);
        code = rocktray_recipients(mail.at, mail.length, found, found_needed, &found_needed, strings, needed, &needed);
    }
    printf(" recipients=");
    if (code != ROCKTRAY_DONE)
        printf("!%u", code);
    for (size_t i = 0; code == ROCKTRAY_DONE && i < found_needed; i++) {
        fputs(i ? "," : "", stdout);
        print_text(strings, found[i].final_start, found[i].final_end);
        print_text(strings, found[i].original_start, found[i].original_end);
        print_text(strings, found[i].action_start, found[i].action_end);
        print_text(strings, found[i].status_start, found[i].status_end);
        print_text(strings, found[i].diagnostic_start, found[i].diagnostic_end);
    }
    free(found);
    free(strings);
}

/* Writes the files in the text of a body: the range of the block of each, its name, its bytes, and whether it is damaged. */
static void print_text_files(uint64_t encoding, struct bytes body)
{
    size_t length = 0, found_needed = 0, needed = 0;
    bool is_damaged;
    rocktray_body(encoding, body.at, body.length, NULL, 0, &length, &is_damaged);
    char *text = malloc(length + 1);
    rocktray_body(encoding, body.at, body.length, text, length, &length, &is_damaged);
    rocktray_text_files(text, length, 1000000, NULL, 0, &found_needed, NULL, 0, &needed);
    struct rocktray_text_file *found = malloc((found_needed + 1) * sizeof *found);
    char *strings = malloc(needed + 1);
    uint32_t code = rocktray_text_files(text, length, 1000000, found, found_needed, &found_needed, strings, needed, &needed);
    printf(" text_files=");
    if (code != ROCKTRAY_DONE)
        printf("!%u", code);
    for (size_t i = 0; code == ROCKTRAY_DONE && i < found_needed; i++) {
        printf("%s%llu:%llu", i ? "," : "", (unsigned long long)found[i].block_start, (unsigned long long)found[i].block_end);
        print_bytes(strings, found[i].name_start, found[i].name_end);
        print_bytes(strings, found[i].content_start, found[i].content_end);
        printf(":%d", (int)found[i].is_damaged);
    }
    free(text);
    free(found);
    free(strings);
}

static void print_digits(const char *at, uint64_t start, uint64_t end)
{
    for (; start < end; start++)
        printf("%02x", (uint8_t)at[start]);
}

/* Writes the strings of a type: its name, charset and parameters. */
static void print_type(struct bytes raw)
{
    uint64_t ends[100], start = 0;
    char strings[1 << 16];
    size_t count = 0, length;
    uint32_t code = rocktray_type(raw.at, raw.length, ends, 100, &count, strings, sizeof strings, &length);
    printf(" type=");
    if (code != ROCKTRAY_DONE)
        printf("!%u", code);
    for (size_t i = 0; i < count && code == ROCKTRAY_DONE; start = ends[i++]) {
        fputs(i ? "," : "", stdout);
        print_digits(strings, start, ends[i]);
    }
}

/* Writes the addresses in the first headers with some names. */
static void print_addresses(struct bytes mail, const struct records *records)
{
    static const char *const names[] = { "from", "to", "cc", "bcc", "reply-to" };
    static struct rocktray_address addresses[10000];
    static char strings[1 << 20];
    for (size_t i = 0; i < sizeof names / sizeof *names; i++) {
        struct bytes raw = named(mail, records, &records->parts[0], names[i]);
        size_t count = 0, length;
        if (rocktray_addresses(raw.at, raw.length, addresses, 10000, &count, strings, sizeof strings, &length)
            != ROCKTRAY_DONE)
            printf("too many addresses\n");
        for (size_t j = 0; j < count; j++) {
            const struct rocktray_address *one = &addresses[j];
            printf("address of=%s kind=%d group=%lld name=", names[i], (int)one->kind, (long long)one->group);
            print_digits(strings, one->name_start, one->name_end);
            printf(" address=");
            print_digits(strings, one->address_start, one->address_end);
            printf("\n");
        }
    }
}

/* Reads the headers of a part alone, and sets *is_same to whether they are those of its records. Returns the code. */
static uint32_t read_block(struct bytes mail, const struct records *records, const struct rocktray_part *part,
                           bool *is_same)
{
    struct bytes bytes = range(mail, part->start, part->end);
    struct rocktray_header_record *headers = malloc((part->header_count + 1) * sizeof *headers);
    const struct rocktray_header_record *wanted = records->headers + part->first_header;
    size_t count = 0;
    uint32_t code = rocktray_headers(bytes.at, bytes.length, SIZE_MAX, headers, part->header_count, &count);
    *is_same = code == ROCKTRAY_DONE && count == part->header_count;
    for (size_t i = 0; *is_same && i < count; i++)
        *is_same = headers[i].start + part->start == wanted[i].start && headers[i].end + part->start == wanted[i].end
            && headers[i].key_end + part->start == wanted[i].key_end
            && headers[i].value_start + part->start == wanted[i].value_start
            && headers[i].value_end + part->start == wanted[i].value_end;
    free(headers);
    return code;
}

static void print_part(struct bytes mail, const struct records *records, const struct rocktray_part *part)
{
    const struct bytes body = range(mail, part->body_start, part->body_end);
    const struct bytes type = named(mail, records, part, "Content-Type");
    bool is_block_same;
    const uint32_t block = read_block(mail, records, part, &is_block_same);
    printf("part parent=%lld level=%llu start=%llu end=%llu encoding=%llu disposition=%llu flags=%llu size=%zu",
           (long long)part->parent, (unsigned long long)part->level, (unsigned long long)part->start,
           (unsigned long long)part->end, (unsigned long long)part->encoding, (unsigned long long)part->disposition,
           (unsigned long long)part->flags, body.length);
    print_result("file_name", FILE_NAME, named(mail, records, part, "Content-Disposition"), type, 0);
    print_result("text", BODY_TEXT, body, type, part->encoding);
    print_result("charset", BODY_CHARSET, body, type, part->encoding);
    print_report(range(mail, part->start, part->end));
    print_text_files(part->encoding, body);
    print_type(type);
    printf(" block=%u same=%d\n", block, is_block_same);
    for (uint64_t i = part->first_header; i < part->first_header + part->header_count; i++) {
        const struct rocktray_header_record *header = &records->headers[i];
        printf("header key=");
        for (uint64_t j = header->start; j < header->key_end; j++)
            printf("%02x", mail.at[j]);
        print_result("value", VALUE, range(mail, header->value_start, header->value_end), range(mail, 0, 0), 0);
        printf("\n");
    }
}

/* Writes the findings of a mail: of each its class, its range and its texts. */
static void print_findings(struct bytes mail)
{
    size_t found_needed = 0, needed = 0;
    struct rocktray_finding *found = NULL;
    char *strings = NULL;
    uint32_t code = rocktray_findings(mail.at, mail.length, NULL, 0, &found_needed, NULL, 0, &needed);
    if (code == ROCKTRAY_TOO_SHORT) {
        found = malloc((found_needed + 1) * sizeof *found);
        strings = malloc(needed + 1);
        code = rocktray_findings(mail.at, mail.length, found, found_needed, &found_needed, strings, needed, &needed);
    }
    printf(" findings=");
    if (code != ROCKTRAY_DONE)
        printf("!%u", code);
    for (size_t i = 0; code == ROCKTRAY_DONE && i < found_needed; i++) {
        printf("%s%d:%llu:%llu", i ? "," : "", (int)found[i].finding_class, (unsigned long long)found[i].start,
               (unsigned long long)found[i].end);
        print_bytes(strings, found[i].name_start, found[i].name_end);
        print_bytes(strings, found[i].path_start, found[i].path_end);
        print_bytes(strings, found[i].sentence_start, found[i].sentence_end);
    }
    free(found);
    free(strings);
}

static int write_records(char **names)
{
    for (; *names; names++) {
        struct bytes mail = read_file(*names);
        struct records records;
        uint32_t code = records_of(mail, &records);
        printf("mail code=%u", code);
        print_result("bounced_id", BOUNCED_ID, mail, range(mail, 0, 0), 0);
        print_recipients(mail);
        print_findings(mail);
        print_result("unquoted", UNQUOTED, mail, range(mail, 0, 0), 0);
        printf("\n");
        for (size_t i = 0; code == ROCKTRAY_DONE && i < records.parts_length; i++)
            print_part(mail, &records, &records.parts[i]);
        if (code == ROCKTRAY_DONE)
            print_addresses(mail, &records);
        free_records(&records);
        free((void *)mail.at);
    }
    return 0;
}

/* Threads. */

static struct bytes *files;
static size_t count_of_files;

/* A checksum of the results of all calls over all files and tests. */
static uint64_t run_all(void)
{
    uint64_t sum = 14695981039346656037u;
    for (size_t i = 0; i < count_of_files + TESTS; i++) {
        for (int kind = JSON; kind <= BODY_CHARSET; kind++) {
            struct test test = { (enum kind)kind, i < TESTS ? tests[i].input : files[i - TESTS], BYTES("subject"), 0,
                                 0, NOTHING };
            uint32_t code;
            struct bytes result = result_of(&test, &code);
            sum = (sum ^ code) * 1099511628211u;
            for (size_t j = 0; j < result.length && code == ROCKTRAY_DONE; j++)
                sum = (sum ^ result.at[j]) * 1099511628211u;
            free((void *)result.at);
        }
    }
    return sum;
}

static void *run_thread(void *sum)
{
    *(uint64_t *)sum = run_all();
    return NULL;
}

static int check_threads(char **names)
{
    pthread_t threads[THREADS];
    uint64_t sums[THREADS], sum;
    while (names[count_of_files])
        count_of_files++;
    files = malloc((count_of_files + 1) * sizeof *files);
    for (size_t i = 0; i < count_of_files; i++)
        files[i] = read_file(names[i]);
    sum = run_all();
    for (int i = 0; i < THREADS; i++)
        if (pthread_create(&threads[i], NULL, run_thread, &sums[i]))
            exit(1);
    for (int i = 0; i < THREADS; i++) {
        pthread_join(threads[i], NULL);
        count(sums[i] == sum, "a thread", (size_t)i);
    }
    for (size_t i = 0; i < count_of_files; i++)
        free((void *)files[i].at);
    free(files);
    return 0;
}

/* Stack. */

/* the bytes before a stack that cannot be used */
#define GUARD (1 << 16)

/* Appends a mail with 100 levels of parts, the last of which has many encoded parameters, and forwards a mail in a charset
 * of several bytes. */
static void append_deepest(char *text)
{
    for (int i = 0; i < 100; i++)
        sprintf(text + strlen(text), "Subject: =?gb18030?b?xOO6ww==?=\nFrom: \"a\" <a@b>\nDate: 1 Jan 2012 20:57 +02\n"
                                     "Content-Type: multipart/report; boundary=b%03d\n\n--b%03d\n", i, i);
    strcat(text, "Content-Type: message/rfc822");
    for (int i = 0; i < 3000; i++)
        sprintf(text + strlen(text), "; p%d*=utf-7''+AOk-", i * 7919 % 3001);
    strcat(text, "\nContent-Disposition: attachment; filename*=utf-8''%E2%82%AC\n\n"
                 "Message-ID: <1@a>\nContent-Type: text/plain; charset=gb18030\n\n\xc4\xe3");
}

/* The deepest mail, forwarded by this many mails, each in the one before. */
static struct bytes forwarded_mail(int mails)
{
    const size_t size = 100000;
    struct bytes mail = { calloc(size, 1), 0 };
    char *text = (char *)mail.at;
    for (int i = 0; i < mails; i++)
        strcat(text, "Content-Type: message/rfc822\n\n");
    append_deepest(text);
    mail.length = strlen(text);
    return mail;
}

static void run_kinds(enum kind from, enum kind to)
{
    for (size_t i = 0; i < count_of_files + TESTS; i++) {
        for (int kind = from; kind <= (int)to; kind++) {
            struct test test = { (enum kind)kind, i < TESTS ? tests[i].input : files[i - TESTS], BYTES("subject"),
                                 ROCKTRAY_BASE64, 0, NOTHING };
            uint32_t code;
            free((void *)result_of(&test, &code).at);
        }
    }
}

static void *run_lines(void *unused)
{
    run_kinds(JSON, JSON);
    for (size_t i = 0; i < count_of_files + TESTS; i++) {
        size_t found_needed, needed;
        const struct bytes in = i < TESTS ? tests[i].input : files[i - TESTS];
        rocktray_findings(in.at, in.length, NULL, 0, &found_needed, NULL, 0, &needed);
    }
    return unused;
}

static void *run_mails(void *unused)
{
    run_kinds(CONTENT, BOUNCED_ID);
    for (size_t i = 0; i < count_of_files + TESTS; i++) {
        struct records records;
        size_t fields_needed, needed;
        const struct bytes in = i < TESTS ? tests[i].input : files[i - TESTS];
        records_of(in, &records);
        free_records(&records);
        rocktray_report(in.at, in.length, NULL, 0, &fields_needed, NULL, 0, &needed);
        rocktray_recipients(in.at, in.length, NULL, 0, &fields_needed, NULL, 0, &needed);
        rocktray_text_files(in.at, in.length, SIZE_MAX, NULL, 0, &fields_needed, NULL, 0, &needed);
    }
    return unused;
}

static void *run_ranges(void *unused)
{
    size_t ends_needed, needed;
    run_kinds(UNQUOTED, BODY_CHARSET);
    for (size_t i = 0; i < count_of_files + TESTS; i++) {
        const struct bytes in = i < TESTS ? tests[i].input : files[i - TESTS];
        rocktray_headers(in.at, in.length, SIZE_MAX, NULL, 0, &needed);
        rocktray_type(in.at, in.length, NULL, 0, &ends_needed, NULL, 0, &needed);
        rocktray_addresses(in.at, in.length, NULL, 0, &ends_needed, NULL, 0, &needed);
    }
    return unused;
}

/* The bytes of a stack of this size that a thread changes. */
static size_t stack_of(void *(*run)(void *), size_t size)
{
    pthread_t thread;
    pthread_attr_t attributes;
    size_t unused = 0;
    uint8_t *block = mmap(NULL, GUARD + size, PROT_READ | PROT_WRITE, MAP_PRIVATE | MAP_ANONYMOUS, -1, 0);
    uint8_t *stack = block + GUARD;
    if (block == MAP_FAILED || mprotect(block, GUARD, PROT_NONE))
        exit(1);
    memset(stack, 0xA5, size);
    pthread_attr_init(&attributes);
    if (pthread_attr_setstack(&attributes, stack, size) || pthread_create(&thread, &attributes, run, NULL))
        exit(1);
    pthread_join(thread, NULL);
    while (unused < size && stack[unused] == 0xA5)
        unused++;
    munmap(block, GUARD + size);
    return size - unused;
}

static int write_stack(size_t size, char **names)
{
    while (names[count_of_files])
        count_of_files++;
    files = malloc((count_of_files + 2) * sizeof *files);
    for (size_t i = 0; i < count_of_files; i++)
        files[i] = read_file(names[i]);
    files[count_of_files++] = forwarded_mail(0);
    files[count_of_files++] = forwarded_mail(99);
    printf("ranges %zu, mails %zu, lines %zu\n", stack_of(run_ranges, size), stack_of(run_mails, size),
           stack_of(run_lines, size));
    return 0;
}

int main(int argc, char **argv)
{
    if (argc == 2 && strcmp(argv[1], "cases") == 0)
        check_cases();
    else if (argc > 1 && strcmp(argv[1], "threads") == 0)
        check_threads(argv + 2);
    else if (argc > 1 && strcmp(argv[1], "lines") == 0)
        return write_lines(argv + 2);
    else if (argc > 2 && strcmp(argv[1], "stack") == 0)
        return write_stack(strtoul(argv[2], NULL, 10) << 10, argv + 3);
    else if (argc > 1 && strcmp(argv[1], "records") == 0)
        return write_records(argv + 2);
    else
        return 2;
    printf("%ld passed, %ld failed\n", passed, failed);
    return failed != 0;
}
