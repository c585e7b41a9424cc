#!/usr/bin/perl
# written.pl CASE [zero:H,Q,P]: writes the whole frame of case A, B, C, D or E, with that block zeroed where one is named.
# written.pl sums: a line for each case with its number, the answer 0 and the two halves of the frame's checksum.
# Written from the Recommendation and document 01 alone, and not from the library: the places of samples and of macroblocks are the
# Recommendation's own equations and loops (3.6.2.2, 3.7.2.1), not document 01's closed formulas.
use strict;
use warnings;

# rate, sequences of a DIF channel, STYPE of VS, macroblocks
my @systems = (
    { rate => 60, n => 10, stype => 0b10100, macroblocks => 5400 },    # 1080/60/I
    { rate => 50, n => 12, stype => 0b10100, macroblocks => 6075 },    # 1080/50/I
    { rate => 60, n => 10, stype => 0b11000, macroblocks => 5400 },    # 720/60/P
    { rate => 50, n => 12, stype => 0b11000, macroblocks => 5400 },    # 720/50/P
);

# name, system, samples of a channel
my @cases = (['A', 0, 1600], ['B', 0, 1602], ['C', 1, 1920], ['D', 2, 1602], ['E', 3, 1920]);

# ---- what is put into a frame

# the sound, channel after channel; 32768 is a lost sample
sub sound {
    my ($count) = @_;
    my @x = map { ($_ * 2731 + 7) % 65537 - 32768 } 0 .. 8 * $count - 1;
    @x[0, 1, -1] = (-32768, 32768, -32768);
    return \@x;
}

# 77 bytes a macroblock, in number order
sub macroblocks {
    my ($number) = @_;
    return pack 'C*', map { (6 * $_ + int($_ / 37)) % 256 } 0 .. 77 * $number - 1;
}

my %time_code = (60 => "\x29\xD9\x59\xE3", 50 => "\x64\xD9\x59\xE3");
my $binary_group = "\x12\x34\x56\x78";

# ---- where blocks stand

# Figure 3: H0 SC0 SC1 VA0 VA1 VA2, then each A before its 15 V; as section type (table 2) and block number
my @places = ([0, 0], [1, 0], [1, 1], [2, 0], [2, 1], [2, 2]);
for my $a (0 .. 8) {
    push @places, [3, $a], map { [4, 15 * $a + $_] } 0 .. 14;
}
my @place_of;
$place_of[ $places[$_][0] ][ $places[$_][1] ] = $_ for 0 .. $#places;

# Table 5: FSC and FSP of DIF channels 0 to 3
my @fsc = (0, 1, 0, 1);
my @fsp = (1, 1, 0, 0);

# Table 1: reserved and arbitrary bits are ones
sub id {
    my ($h, $q, $section, $number) = @_;
    return pack 'C3', $section << 5 | 0b11111, $q << 4 | $fsc[$h] << 3 | $fsp[$h] << 2 | 0b11, $number;
}

# ---- the parts of a frame. A frame begins as ones, so what no rule lists stays so.

# Table 7: DSF, then a zero; APT to AP3 are 111; TF1, TF2, TF3 are 0, valid
sub header {
    my ($put, $system, $h, $q) = @_;
    my $dsf = $system->{rate} == 50 ? 1 : 0;
    $put->($h, $q, 0, 0, 3, pack 'C5', $dsf << 7 | 0x3F, 0xFF, 0x7F, 0x7F, 0x7F);
}

# Tables 8 and 10: FR in ID0, the number in ID1, FFh, a pack
sub subcode {
    my ($put, $system, $h, $q) = @_;
    my $first = $q < $system->{n} / 2;
    my $tc    = "\x13" . $time_code{ $system->{rate} };
    my $bg    = "\x14" . $binary_group;
    my %packs = $first ? (3 => $tc, 4 => $bg, 5 => $tc, 9 => $tc, 10 => $bg, 11 => $tc) : (3 => $tc, 9 => $tc);
    for my $syb (0 .. 11) {
        my $ssyb = pack('C3', $first ? 0xFF : 0x7F, 0xF0 | $syb, 0xFF) . ($packs{$syb} // "\xFF" x 5);
        $put->($h, $q, 1, int($syb / 6), 3 + 8 * ($syb % 6), $ssyb);
    }
}

# Tables 13 to 15: VS and VSC at packs 39 and 40 of an even sequence, 0 and 1 of an odd one; their other bits are document 01's
sub vaux {
    my ($put, $system, $h, $q) = @_;
    my $fifty = $system->{rate} == 50 ? 1 : 0;
    my $vs    = pack 'C5', 0x60, 0xFF, 0xFF, 0b11 << 6 | $fifty << 5 | $system->{stype}, 0xFF;
    my $vsc   = "\x61\xFF\xFF\xFF\xFF";
    my $pack  = $q % 2 == 0 ? 39 : 0;
    for ([$pack, $vs], [$pack + 1, $vsc]) {
        my ($number, $bytes) = @$_;
        $put->($h, $q, 2, int($number / 15), 3 + 5 * ($number % 15), $bytes);
    }
}

# Tables 18 to 20: AS and ASC in blocks A3 and A4 of an even sequence, A0 and A1 of an odd one; the mode goes by the half
my %af_size = (1600 => 0b010100, 1602 => 0b010110, 1920 => 0b011000);

sub aaux {
    my ($put, $system, $count, $h, $q) = @_;
    my $fifty = $system->{rate} == 50 ? 1 : 0;
    my $mode  = $q < $system->{n} / 2 ? 0b0000 : 0b0001;
    my $as    = pack 'C5', 0x50, 0 << 7 | 1 << 6 | $af_size{$count}, 0b0001 << 4 | $mode, 0b11 << 6 | $fifty << 5 | 0b00011, 0b11 << 6;
    my $asc   = "\x51\xFF\xFF\xFF\xFF";
    my $pack  = $q % 2 == 0 ? 3 : 0;
    $put->($h, $q, 3, $pack,     3, $as);
    $put->($h, $q, 3, $pack + 1, 3, $asc);
}

# 3.6.2.1.3: 8000h is the error code, so the level that would be it is 8001h; positions from the count on are 0
sub word {
    my ($x) = @_;
    return $x == 32768 ? 0x8000 : $x == -32768 ? 0x8001 : $x % 65536;
}

# 3.6.2.2: channels 1, 3, 5, 7 in the first half of the sequences, 2, 4, 6, 8 in the second
sub audio {
    my ($put, $system, $count, $sound) = @_;
    for my $ch (1 .. 8) {
        my $i = int(($ch - 1) / 2);
        for my $n (0 .. ($system->{rate} == 60 ? 1619 : 1943)) {
            my ($sequence, $block, $byte);
            if ($system->{rate} == 60) {
                $sequence = (int($n / 3) + 2 * ($n % 3)) % 5;
                $sequence += 5 if $ch % 2 == 0;
                $block = 3 * ($n % 3) + int(($n % 45) / 15);
                $byte  = 8 + 2 * int($n / 45);
            } else {
                $sequence = (int($n / 3) + 2 * ($n % 3)) % 6;
                $sequence += 6 if $ch % 2 == 0;
                $block = 3 * ($n % 3) + int(($n % 54) / 18);
                $byte  = 8 + 2 * int($n / 54);
            }
            my $x = $n < $count ? $sound->[ ($ch - 1) * $count + $n ] : 0;
            $put->($i, $sequence, 3, $block, $byte, pack 'n', word($x));
        }
    }
}

# 3.7.2.1, the loops as printed; a slot that they do not name carries no macroblock and stays FFh
sub video {
    my ($put, $system, $bytes) = @_;
    my $v = sub {
        my ($dbn, $h, $dsn, $number) = @_;
        $put->($h, $dsn, 4, $dbn, 3, substr $bytes, 77 * $number, 77);
    };
    if ($system != $systems[1]) {
        my $cm = sub { my ($h, $i, $j, $k) = @_; ((10 * $h + $i) * 5 + $j) * 27 + $k };
        for my $h (0 .. 3) {
            for my $s (0 .. 1) {
                for my $k (0 .. 26) {
                    for my $t (0 .. 4) {
                        my $a   = (4 * $h + $s + 2 * $t + 2) % 10;
                        my $b   = (4 * $h + $s + 2 * $t + 6) % 10;
                        my $c   = (4 * $h + $s + 2 * $t + 8) % 10;
                        my $d   = (4 * $h + $s + 2 * $t + 0) % 10;
                        my $e   = (4 * $h + $s + 2 * $t + 4) % 10;
                        my $dbn = (5 * $t + 25 * $k) % 135;
                        my $dsn = int((5 * $t + 25 * $k + 675 * $s) / 135);
                        $v->($dbn,     $h, $dsn, $cm->($h, $a, 2, $k));
                        $v->($dbn + 1, $h, $dsn, $cm->($h, $b, 1, $k));
                        $v->($dbn + 2, $h, $dsn, $cm->($h, $c, 3, $k));
                        $v->($dbn + 3, $h, $dsn, $cm->($h, $d, 0, $k));
                        $v->($dbn + 4, $h, $dsn, $cm->($h, $e, 4, $k));
                    }
                }
            }
        }
        return;
    }
    my $cm = sub { my ($h, $i, $j, $k) = @_; ((11 * $h + $i) * 5 + $j) * 27 + $k };
    for my $h (0 .. 3) {
        for my $k (0 .. 26) {
            for my $i (0 .. 10) {
                my $a   = (4 * $h + $i + 2) % 11;
                my $b   = (4 * $h + $i + 6) % 11;
                my $c   = (4 * $h + $i + 8) % 11;
                my $d   = (4 * $h + $i + 0) % 11;
                my $e   = (4 * $h + $i + 4) % 11;
                my $dbn = (5 * $i + 55 * $k) % 135;
                my $dsn = int((5 * $i + 55 * $k) / 135);
                $v->($dbn,     $h, $dsn, $cm->($h, $a, 2, $k));
                $v->($dbn + 1, $h, $dsn, $cm->($h, $b, 1, $k));
                $v->($dbn + 2, $h, $dsn, $cm->($h, $c, 3, $k));
                $v->($dbn + 3, $h, $dsn, $cm->($h, $d, 0, $k));
                $v->($dbn + 4, $h, $dsn, $cm->($h, $e, 4, $k));
            }
        }
    }

    # the edge unit: CM 0,11,j,k comes in number after the main unit's 5,940
    for my $k (0 .. 26) {
        my $dbn = 5 * $k;
        $v->($dbn,     0, 11, 5940 + 27 * 0 + $k);
        $v->($dbn + 1, 0, 11, 5940 + 27 * 1 + $k);
        $v->($dbn + 2, 0, 11, 5940 + 27 * 2 + $k);
        $v->($dbn + 3, 0, 11, 5940 + 27 * 3 + $k);
        $v->($dbn + 4, 0, 11, 5940 + 27 * 4 + $k);
    }
}

# ---- the frame

sub start { my ($n, $h, $q, $place) = @_; (($n * $h + $q) * 150 + $place) * 80 }

sub frame {
    my ($case) = @_;
    my (undef, $number, $count) = @$case;
    my $system = $systems[$number];
    my $n      = $system->{n};
    my $frame  = "\xFF" x (48_000 * $n);

    # bytes at a byte of a block, the block named by DIF channel, sequence, section and number
    my $put = sub {
        my ($h, $q, $section, $block, $byte, $bytes) = @_;
        substr $frame, start($n, $h, $q, $place_of[$section][$block]) + $byte, length $bytes, $bytes;
    };
    for my $h (0 .. 3) {
        for my $q (0 .. $n - 1) {
            $put->($h, $q, @$_, 0, id($h, $q, @$_)) for @places;
            header($put, $system, $h, $q);
            subcode($put, $system, $h, $q);
            vaux($put, $system, $h, $q);
            aaux($put, $system, $count, $h, $q);
        }
    }
    audio($put, $system, $count, sound($count));
    video($put, $system, macroblocks($system->{macroblocks}));
    die "written.pl: a write has run over the frame's end\n" unless length $frame == 48_000 * $n;
    return $frame;
}

# Adler's checksum, its two halves
sub sums {
    my ($s1, $s2) = (1, 0);
    for my $b (unpack 'C*', $_[0]) {
        $s1 = ($s1 + $b) % 65521;
        $s2 = ($s2 + $s1) % 65521;
    }
    return ($s1, $s2);
}

my ($what, @ops) = @ARGV;
die "written.pl: name a case, A to E, or sums\n" unless defined $what;
if ($what eq 'sums' && !@ops) {
    print join("\t", 'sum', $_, 0, sums(frame($cases[$_]))), "\n" for 0 .. $#cases;
    exit 0;
}
my ($case) = grep { $_->[0] eq $what } @cases;
die "written.pl: no such case: $what\n" unless $case;
my $frame = frame($case);
my $n     = $systems[ $case->[1] ]{n};
for my $op (@ops) {
    die "written.pl: no such change: $op\n" unless $op =~ /^zero:(\d+),(\d+),(\d+)$/ && $1 < 4 && $2 < $n && $3 < 150;
    substr $frame, start($n, $1, $2, $3), 80, "\0" x 80;
}
binmode STDOUT;
print $frame;
