# Dumps mails as Email::MIME, which Perl programs use, reads them. A mail inside a mail is read by a call of its own.
use strict;
use warnings;
use Email::Address::XS;
use Email::MIME;
use Encode;

sub hexed {
    my $data = shift // '';
    $data = encode('UTF-8', $data) if utf8::is_utf8($data);
    return length $data ? unpack('H*', $data) : '-';
}

sub dump_part {
    my ($part, $depth) = @_;
    my $type = lc(($part->content_type // 'text/plain') =~ s/\s*;.*//sr);
    my @parts = $part->subparts;
    @parts = Email::MIME->new($part->body) if $type eq 'message/rfc822';
    print "part $depth ", hexed($type), ' ', hexed(scalar $part->filename), ' ', @parts ? '*' : hexed($part->body), "\n";
    dump_part($_, $depth + 1) for @parts;
}

$| = 1;
$SIG{__WARN__} = sub { };
while (my $path = <STDIN>) {
    chomp $path;
    open my $file, '<:raw', $path or die;
    my $raw = do { local $/; <$file> };
    my $done = eval {
        my $mail = Email::MIME->new($raw);
        dump_part($mail, 0);
        print 'subject ', hexed(scalar $mail->header_str('Subject')), "\n";
        my ($sender) = Email::Address::XS->parse($mail->header_raw('From') // '');
        print 'from ', hexed($sender ? $sender->address : ''), "\n";
        1;
    };
    print "\nfailed ", hexed($@), "\n" unless $done;
    print "end\n";
}
