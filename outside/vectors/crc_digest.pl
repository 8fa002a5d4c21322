# Reads lines `crc HEX` and writes `HEX CRC`, the CRC by Digest::CRC.
use strict;
use warnings;
use Digest::CRC;

while (my $line = <STDIN>) {
    my (undef, $text) = split ' ', $line;
    my $run = $text eq '-' ? '' : pack 'H*', $text;
    # Digest::CRC takes the initial value 6363h and the polynomial 8408h with their bits turned round.
    my $crc = Digest::CRC->new(width => 16, init => 0xC6C6, xorout => 0, refout => 1, poly => 0x1021, refin => 1, cont => 0);
    $crc->add($run);
    # Low byte first, as it is sent.
    print "$text ", uc(unpack 'H*', pack 'v', $crc->digest), "\n";
}
