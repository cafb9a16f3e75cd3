// Dumps mails as Go's net/mail, mime and mime/multipart read them, with the charsets of x/text.
package main

import ("bufio"; "bytes"; "encoding/base64"; "fmt"; "io"; "mime"; "mime/multipart"; "mime/quotedprintable"; "net/mail"
	"net/textproto"; "os"; "strings"; "golang.org/x/text/encoding/htmlindex")

var words = &mime.WordDecoder{CharsetReader: func(label string, in io.Reader) (io.Reader, error) {
	return must(htmlindex.Get(label)).NewDecoder().Reader(in), nil
}}

func must[T any](value T, err error) T {
	if err != nil { panic(err) }
	return value
}

func hex[T string | []byte](data T) string {
	if len(data) == 0 { return "-" }
	return fmt.Sprintf("%x", data)
}

func decoded(encoding string, body io.Reader) io.Reader {
	switch strings.ToLower(strings.TrimSpace(encoding)) {
	case "base64": return base64.NewDecoder(base64.StdEncoding, body)
	case "quoted-printable": return quotedprintable.NewReader(body)
	}
	return body
}

func dump(head textproto.MIMEHeader, body io.Reader, depth int) {
	kind, parameters, err := "text/plain", map[string]string{}, error(nil)
	if head.Get("Content-Type") != "" { kind, parameters, err = mime.ParseMediaType(head.Get("Content-Type")) }
	if err != nil { panic(err) }
	_, disposition, _ := mime.ParseMediaType(head.Get("Content-Disposition"))
	name := disposition["filename"]
	if name == "" { name = parameters["name"] }
	fmt.Print("part ", depth, " ", hex(kind), " ", hex(name), " ")
	if strings.HasPrefix(kind, "multipart/") {
		fmt.Println("*")
		parts := multipart.NewReader(body, parameters["boundary"])
		for part, err := parts.NextRawPart(); err != io.EOF; part, err = parts.NextRawPart() { dump(must(part, err).Header, part, depth+1) }
	} else if body = decoded(head.Get("Content-Transfer-Encoding"), body); kind == "message/rfc822" {
		fmt.Println("*")
		inner := must(mail.ReadMessage(body))
		dump(textproto.MIMEHeader(inner.Header), inner.Body, depth+1)
	} else { fmt.Println(hex(must(io.ReadAll(body)))) }
}

func one(path string) {
	defer fmt.Println("end")
	defer func() { if fault := recover(); fault != nil { fmt.Println("\nfailed", hex(fmt.Sprint(fault))) } }()
	message := must(mail.ReadMessage(bytes.NewReader(must(os.ReadFile(path)))))
	dump(textproto.MIMEHeader(message.Header), message.Body, 0)
	fmt.Println("subject", hex(must(words.DecodeHeader(message.Header.Get("Subject")))))
	if from := message.Header.Get("From"); from == "" { fmt.Println("from -")
	} else { fmt.Println("from", hex(must((&mail.AddressParser{WordDecoder: words}).ParseList(from))[0].Address)) }
}

func main() { for paths := bufio.NewScanner(os.Stdin); paths.Scan(); { one(paths.Text()) } }
