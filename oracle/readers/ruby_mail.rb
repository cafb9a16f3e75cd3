# Dumps mails as the gem mail of Ruby reads them. It gets CR LF, as its page asks for, and a mail inside a mail is read by
# a call of its own.
require 'mail'

def hexed(data)
  text = data.to_s
  text.empty? ? '-' : text.unpack1('H*')
end

def inner(part)
  return part.parts if part.multipart?
  part.mime_type == 'message/rfc822' ? [Mail.new(part.decoded)] : nil
end

def dump(part, depth)
  parts = inner(part)
  name = part.content_disposition && part[:content_disposition].filename rescue nil
  name ||= part[:content_type] && (part[:content_type].parameters || {})['name']
  bytes = parts ? '*' : hexed(part.body.decoded)
  puts "part #{depth} #{hexed(part.mime_type || 'text/plain')} #{hexed(name)} #{bytes}"
  (parts || []).each { |each| dump(each, depth + 1) }
end

$stdout.sync = true
$stderr.reopen(File::NULL)
$stdin.each_line(chomp: true) do |path|
  begin
    mail = Mail.new(File.binread(path).gsub(/\r?\n/n, "\r\n"))
    dump(mail, 0)
    puts "subject #{hexed(mail.subject)}"
    puts "from #{hexed(mail[:from] && mail[:from].respond_to?(:addrs) && mail[:from].addrs.first&.address || '')}"
  rescue StandardError => error
    puts "\nfailed #{hexed(error.message)}"
  end
  puts 'end'
end
