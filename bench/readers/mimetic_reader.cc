/* mimetic_reader.cc: times reading mails by mimetic, as README.md says. */
#include "bench.h"

#include <iterator>
#include <mimetic/mimetic.h>
#include <string>

namespace
{

/* The decoded bytes of a body, of which mimetic says how it is encoded. */
std::string decoded(mimetic::MimeEntity &part)
{
    const std::string &body = part.body();
    const mimetic::istring &encoding = part.header().contentTransferEncoding().mechanism();
    std::string made;
    if (encoding == "base64") {
        mimetic::Base64::Decoder decoder;
        mimetic::decode(body.begin(), body.end(), decoder, std::back_inserter(made));
    } else if (encoding == "quoted-printable") {
        mimetic::QP::Decoder decoder;
        mimetic::decode(body.begin(), body.end(), decoder, std::back_inserter(made));
    } else {
        made = body;
    }
    return made;
}

/* Reads the values, the body and the parts of a part. Returns how many bytes the bodies have. */
size_t read_all(mimetic::MimeEntity &part)
{
    size_t made = 0;
    for (const mimetic::Field &field : part.header())
        field.value();
    if (part.body().parts().empty())
        made += decoded(part).length();
    for (mimetic::MimeEntity *inner : part.body().parts())
        made += read_all(*inner);
    return made;
}

size_t parse(const char *bytes, size_t length)
{
    mimetic::MimeEntity mail;
    mail.load(bytes, bytes + length);
    return mail.body().parts().size();
}

size_t all(const char *bytes, size_t length)
{
    mimetic::MimeEntity mail;
    mail.load(bytes, bytes + length);
    return read_all(mail);
}

size_t mailbox_parse(const char *bytes, size_t length)
{
    return bench_mailbox(bytes, length, parse);
}

size_t mailbox_all(const char *bytes, size_t length)
{
    return bench_mailbox(bytes, length, all);
}

}

static const struct work works[] = {
    { "parse", parse },
    { "all", all },
    { "mailbox-parse", mailbox_parse },
    { "mailbox-all", mailbox_all },
    { NULL, NULL },
};

int main(int count, char **arguments)
{
    return bench(count, arguments, works);
}
