#!/usr/bin/perl
# frames.pl RATE [OP..]: writes a frame of 60 or 50 Hz whose block IDs are right, its other bytes FFh but for the headers' byte 3.
# An OP changes it:  zero:H,Q,P  the 80 bytes of a block   byte:H,Q,P,I=HEX  one byte of it   zero-all   ff-all (every block)
# Written from the paper alone, and not from the library.
use strict;
use warnings;

my ($rate, @ops) = @ARGV;
die "frames.pl: the rate is 60 or 50\n" unless defined $rate && $rate =~ /^(60|50)$/;
my $n   = $rate == 60 ? 10 : 12;
my $dsf = $rate == 60 ? 0x3F : 0xBF;

# section and number of each place: H0 SC0 SC1 VA0 VA1 VA2, then A(a) and 15 V
my @places = ([0, 0], [1, 0], [1, 1], [2, 0], [2, 1], [2, 2]);
for my $a (0 .. 8) {
    push @places, [3, $a], map { [4, 15 * $a + $_] } 0 .. 14;
}

# (FSC, FSP) of DIF channels 0 to 3, in bits 3 and 2
my @sync = (0x04, 0x0C, 0x00, 0x08);

my $frame = '';
for my $h (0 .. 3) {
    for my $q (0 .. $n - 1) {
        for my $p (0 .. 149) {
            my ($section, $number) = @{ $places[$p] };
            $frame .= pack('C3', $section << 5 | 0x1F, $q << 4 | $sync[$h] | 0x03, $number);
            $frame .= $p == 0 ? chr($dsf) . "\xFF" x 76 : "\xFF" x 77;
        }
    }
}

sub start { my ($h, $q, $p) = @_; (($n * $h + $q) * 150 + $p) * 80 }

for my $op (@ops) {
    if    ($op =~ /^zero:(\d+),(\d+),(\d+)$/)                     { substr($frame, start($1, $2, $3), 80) = "\0" x 80 }
    elsif ($op =~ /^byte:(\d+),(\d+),(\d+),(\d+)=([0-9A-F]{2})$/) { substr($frame, start($1, $2, $3) + $4, 1) = chr hex $5 }
    elsif ($op eq 'zero-all')                                     { $frame = "\0" x length $frame }
    elsif ($op eq 'ff-all')                                       { $frame = "\xFF" x length $frame }
    else                                                          { die "frames.pl: no such change: $op\n" }
}
binmode STDOUT;
print $frame;
