// Dumps mails as mime4j reads them, with its permissive settings.
import java.io.*;
import java.nio.charset.StandardCharsets;
import java.util.HexFormat;
import org.apache.james.mime4j.dom.*;
import org.apache.james.mime4j.dom.field.ContentTypeField;
import org.apache.james.mime4j.message.DefaultMessageBuilder;
import org.apache.james.mime4j.stream.MimeConfig;

class Mime4j {
    static String hex(byte[] bytes) {
        return bytes.length == 0 ? "-" : HexFormat.of().formatHex(bytes);
    }

    static String hex(String text) {
        return hex((text == null ? "" : text).getBytes(StandardCharsets.UTF_8));
    }

    static String fileName(Entity part) {
        boolean isTyped = part.getHeader() != null && part.getHeader().getField("Content-Type") instanceof ContentTypeField;
        if (part.getFilename() != null || !isTyped) return part.getFilename();
        return ((ContentTypeField) part.getHeader().getField("Content-Type")).getParameter("name");
    }

    static void dump(Entity part, int depth) throws IOException {
        System.out.print("part " + depth + " " + hex(part.getMimeType()) + " " + hex(fileName(part)) + " ");
        if (part.getBody() instanceof SingleBody) {
            ByteArrayOutputStream bytes = new ByteArrayOutputStream();
            ((SingleBody) part.getBody()).writeTo(bytes);
            System.out.println(hex(bytes.toByteArray()));
        } else {
            System.out.println("*");
        }
        if (part.getBody() instanceof Multipart)
            for (Entity each : ((Multipart) part.getBody()).getBodyParts()) dump(each, depth + 1);
        if (part.getBody() instanceof Message) dump((Message) part.getBody(), depth + 1);
    }

    public static void main(String[] arguments) throws IOException {
        BufferedReader paths = new BufferedReader(new InputStreamReader(System.in));
        System.setOut(new PrintStream(new BufferedOutputStream(new FileOutputStream(FileDescriptor.out))));
        for (String path = paths.readLine(); path != null; path = paths.readLine()) {
            try (InputStream file = new FileInputStream(path)) {
                DefaultMessageBuilder builder = new DefaultMessageBuilder();
                builder.setMimeEntityConfig(MimeConfig.PERMISSIVE);
                Message mail = builder.parseMessage(file);
                dump(mail, 0);
                System.out.println("subject " + hex(mail.getSubject()));
                boolean isSent = mail.getFrom() != null && !mail.getFrom().isEmpty();
                System.out.println("from " + hex(isSent ? mail.getFrom().get(0).getAddress() : ""));
            } catch (Exception error) {
                System.out.println("\nfailed " + hex(error.toString()));
            }
            System.out.println("end");
            System.out.flush();
        }
    }
}
