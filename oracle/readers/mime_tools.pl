# Dumps mails as MIME-tools and MailTools, which Perl programs use, read them.
use strict;
use warnings;
use Encode;
use Mail::Address;
use MIME::Parser;
use MIME::WordDecoder;

sub hexed {
    my $data = shift // '';
    $data = encode('UTF-8', $data) if utf8::is_utf8($data);
    return length $data ? unpack('H*', $data) : '-';
}

sub dump_part {
    my ($part, $depth) = @_;
    my $body = $part->bodyhandle;
    my $bytes = $body ? hexed($body->as_string) : $part->parts ? '*' : '-';
    print "part $depth ", hexed($part->mime_type), ' ', hexed($part->head->recommended_filename), " $bytes\n";
    dump_part($_, $depth + 1) for $part->parts;
}

$| = 1;
$SIG{__WARN__} = sub { };
while (my $path = <STDIN>) {
    chomp $path;
    my $parser = MIME::Parser->new;
    $parser->output_to_core(1);
    $parser->tmp_to_core(1);
    $parser->ignore_errors(1);
    my $done = eval {
        my $mail = $parser->parse_open($path);
        dump_part($mail, 0);
        print 'subject ', hexed(mime_to_perl_string($mail->head->get('Subject', 0) // '')), "\n";
        my ($sender) = Mail::Address->parse($mail->head->get('From', 0) // '');
        print 'from ', hexed($sender ? $sender->address : ''), "\n";
        1;
    };
    print "\nfailed ", hexed($@), "\n" unless $done;
    print "end\n";
}
