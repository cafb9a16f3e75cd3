/* Dumps mails as VMime reads them. A mail inside a mail is read by a call of its own. */
#include <vmime/vmime.hpp>
#include <vmime/contentDispositionField.hpp>
#include <vmime/contentTypeField.hpp>
#include <vmime/platforms/posix/posixHandler.hpp>
#include "dump.h"

using namespace vmime;

static const charset utf8("utf-8");

static std::string file_name(const shared_ptr<const header> &head) {
    auto disposition = head->findField<contentDispositionField>(fields::CONTENT_DISPOSITION);
    if (disposition && disposition->hasFilename()) return disposition->getFilename().getConvertedText(utf8);
    auto type = head->findField<contentTypeField>(fields::CONTENT_TYPE);
    auto name = type ? type->findParameter("name") : nullptr;
    return name ? name->getValue().getConvertedText(utf8) : "";
}

static void dump(const shared_ptr<const bodyPart> &part, int depth) {
    auto body = part->getBody();
    const std::string type = body->getContentType().generate();
    std::string bytes;
    utility::outputStreamStringAdapter out(bytes);
    if (body->getPartCount() == 0) body->getContents()->extract(out);
    const bool is_mail = type == "message/rfc822", is_leaf = body->getPartCount() == 0 && !is_mail;
    dump_part(depth, type.c_str(), file_name(part->getHeader()).c_str());
    if (is_leaf) dump_hex(bytes.data(), bytes.size());
    puts(is_leaf ? "" : " *");
    for (size_t at = 0; at < body->getPartCount(); at++) dump(body->getPartAt(at), depth + 1);
    if (is_mail) {
        auto inner = make_shared<message>();
        inner->parse(bytes);
        dump(inner, depth + 1);
    }
}

static void dump_mail(const std::string &data) {
    auto mail = make_shared<message>();
    mail->parse(data);
    dump(mail, 0);
    auto subject = mail->getHeader()->findFieldValue<text>(fields::SUBJECT);
    auto from = mail->getHeader()->findFieldValue<mailbox>(fields::FROM);
    dump_end((subject ? subject->getConvertedText(utf8) : "").c_str(), (from ? from->getEmail().toString() : "").c_str());
}

int main() {
    platform::setHandler<platforms::posix::posixHandler>();
    size_t length;
    for (char *data; (data = next_file(&length)); free(data)) {
        try {
            dump_mail(std::string(data, length));
        } catch (const std::exception &error) {
            printf("\nfailed");
            dump_text(error.what());
            fputs("\nend\n", stdout), fflush(stdout);
        }
    }
}
