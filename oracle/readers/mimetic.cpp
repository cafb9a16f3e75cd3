/* Dumps mails as mimetic reads them. It leaves bodies encoded, to be decoded by its codecs, and subjects. */
#include <mimetic/mimetic.h>
#include <algorithm>
#include "dump.h"

using namespace mimetic;

static std::string lower(std::string text) {
    std::transform(text.begin(), text.end(), text.begin(), ::tolower);
    return text;
}

static std::string decoded(MimeEntity &part) {
    const std::string encoding = lower(part.header().contentTransferEncoding().mechanism());
    std::string bytes;
    if (encoding == "base64") {
        Base64::Decoder codec;
        decode(part.body().begin(), part.body().end(), codec, std::back_inserter(bytes));
    } else if (encoding == "quoted-printable") {
        QP::Decoder codec;
        decode(part.body().begin(), part.body().end(), codec, std::back_inserter(bytes));
    } else {
        bytes = part.body();
    }
    return bytes;
}

static void dump(MimeEntity &part, int depth) {
    const ContentType &content = part.header().contentType();
    const std::string type = content.type().empty() ? "text/plain" : content.type() + "/" + content.subtype();
    std::string name = part.header().contentDisposition().param("filename");
    if (name.empty()) name = content.param("name");
    MimeEntityList &parts = part.body().parts();
    dump_part(depth, type.c_str(), name.c_str());
    if (parts.empty()) {
        const std::string bytes = decoded(part);
        dump_hex(bytes.data(), bytes.size());
    }
    puts(parts.empty() ? "" : " *");
    for (MimeEntity *each : parts) dump(*each, depth + 1);
}

int main() {
    size_t length;
    for (char *data; (data = next_file(&length)); free(data)) {
        MimeEntity mail(data, data + length);
        dump(mail, 0);
        const MailboxList &from = mail.header().from();
        const std::string address = from.empty() ? "" : from.front().mailbox() + "@" + from.front().domain();
        dump_end(mail.header().subject().c_str(), address.c_str());
    }
}
