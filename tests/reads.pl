#!/usr/bin/perl
# reads.pl: prints the lines that the test program try_reads must print. It runs from the repository's top.
# Written from document 01 alone, with demand 3 for what salvage calls lost, and not from the library: a second reader and salvage, and
# a second hand that puts in new samples.
# The places of samples and of macroblocks are document 01's closed formulas; the frames that are read come from tests/written.pl,
# which has the Recommendation's loops. Of the test program it reads the script, as data: what is changed and what is asked.
use strict;
use warnings;

# sequences of a DIF channel, audio positions, macroblocks, DSF and the 50/60 bits, STYPE of VS, sample counts by AF size
my %sixty_counts = (20 => 1600, 22 => 1602);
my %fifty_counts = (24 => 1920);
my @systems      = (
    { n => 10, positions => 1620, macroblocks => 5400, fifty => 0, stype => 0x14, counts => \%sixty_counts },    # 1080/60/I
    { n => 12, positions => 1944, macroblocks => 6075, fifty => 1, stype => 0x14, counts => \%fifty_counts },    # 1080/50/I
    { n => 10, positions => 1620, macroblocks => 5400, fifty => 0, stype => 0x18, counts => \%sixty_counts },    # 720/60/P
    { n => 12, positions => 1944, macroblocks => 5400, fifty => 1, stype => 0x18, counts => \%fifty_counts },    # 720/50/P
);

# A lost sample among numbers
my $lost = 32768;

# ---- where blocks stand

# H0 SC0 SC1 VA0 VA1 VA2, then each A before its 15 V; as section and DBN
my @places = ([0, 0], [1, 0], [1, 1], [2, 0], [2, 1], [2, 2]);
for my $a (0 .. 8) {
    push @places, [3, $a], map { [4, 15 * $a + $_] } 0 .. 14;
}

# Places of SC0, VA0, A(a) and V(v)
my ($sc0, $va0) = (1, 3);
sub place_of_a { my ($a) = @_; 6 + 16 * $a }
sub place_of_v { my ($v) = @_; 7 + 16 * int($v / 15) + $v % 15 }

# DIF channel by FSC, then FSP: (0,1), (1,1), (0,0), (1,0) is channel 0, 1, 2, 3
my @channel_of = ([2, 0], [3, 1]);

sub start { my ($n, $h, $q, $place) = @_; (($n * $h + $q) * 150 + $place) * 80 }

# ---- a frame as a system's: the number k, the bytes, and what the system brings, if it is one

# The bytes of all frames; each is written over the first of them
my $frame = "\0" x 576_001;

sub view {
    my ($k, $size) = @_;
    return { k => $k, bytes => substr($frame, 0, $size), %{ $systems[$k] // {} } };
}

# Bytes count from the block's start
sub bytes {
    my ($view, $h, $q, $place, $byte, $length) = @_;
    return unpack 'C*', substr $view->{bytes}, start($view->{n}, $h, $q, $place) + $byte, $length;
}

sub byte {
    my ($view, $h, $q, $place, $byte) = @_;
    return ord substr $view->{bytes}, start($view->{n}, $h, $q, $place) + $byte, 1;
}

# DIF channel and sequence of all sequences, in stream order
sub sequences {
    my ($view) = @_;
    my $last = $view->{n} - 1;
    return map { my $h = $_; map { [$h, $_] } 0 .. $last } 0 .. 3;
}

# ---- faults

# 11 a reserved section; 12, 13, 14, 15 a section, channel, Dseq, DBN that is not the place's; the lowest, or 0
sub fault {
    my ($view, $h, $q, $place) = @_;
    my ($id0, $id1, $id2) = unpack 'C3', substr $view->{bytes}, start($view->{n}, $h, $q, $place), 3;
    my ($section, $dbn) = @{ $places[$place] };
    return 11 if $id0 >> 5 > 4;
    return 12 if $id0 >> 5 != $section;
    return 13 if $channel_of[ $id1 >> 3 & 1 ][ $id1 >> 2 & 1 ] != $h;
    return 14 if $id1 >> 4 != $q;
    return 15 if $id2 != $dbn;
    return 0;
}

# All faulty blocks in stream order: channel, sequence, place, fault
sub faults {
    my ($view) = @_;
    my @found;
    for my $sequence (sequences($view)) {
        for my $place (0 .. 149) {
            my $fault = fault($view, @$sequence, $place);
            push @found, [@$sequence, $place, $fault] if $fault;
        }
    }
    return @found;
}

# The first faulty block's fault, or 0
sub first_fault {
    my ($view) = @_;
    my ($first) = faults($view);
    return $first ? $first->[3] : 0;
}

# ---- the frame check

# 1 a system above 3; 2 a length that is not 48,000 n; both before all others
sub refusal {
    my ($view) = @_;
    return 1 if $view->{k} > 3;
    return 2 if length $view->{bytes} != 48_000 * $view->{n};
    return 0;
}

# Header: bit 7 of byte 3 is DSF, of bytes 5, 6, 7 TF1, TF2, TF3
sub header_bit {
    my ($view, $h, $q, $byte) = @_;
    return byte($view, $h, $q, 0, $byte) >> 7;
}

# 21: some header's DSF disagrees
sub dsf_disagrees {
    my ($view) = @_;
    return scalar grep { header_bit($view, @$_, 3) != $view->{fifty} } sequences($view);
}

# VS is pack 39 in even sequences, 0 in odd; 15 packs to a block, five bytes each from byte 3
sub vs {
    my ($view, $h, $q) = @_;
    my $pack = $q % 2 == 0 ? 39 : 0;
    return bytes($view, $h, $q, $va0 + int($pack / 15), 3 + 5 * ($pack % 15), 5);
}

# 60h; bit 5 of PC3 is 1 for 50 Hz, bits 4-0 are STYPE
sub vs_is_right {
    my ($view, $h, $q) = @_;
    my ($pc0, undef, undef, $pc3) = vs($view, $h, $q);
    return $pc0 == 0x60 && ($pc3 >> 5 & 1) == $view->{fifty} && ($pc3 & 0x1F) == $view->{stype};
}

# 22: some VS disagrees, where its header's TF2 is 0
sub vs_disagrees {
    my ($view) = @_;
    return scalar grep { !header_bit($view, @$_, 6) && !vs_is_right($view, @$_) } sequences($view);
}

# 11 to 22, of a frame that 1 and 2 do not refuse; found once for a view
sub checked {
    my ($view) = @_;
    return $view->{checked} //= first_fault($view) || (dsf_disagrees($view) ? 21 : vs_disagrees($view) ? 22 : 0);
}

sub frame_number {
    my ($view) = @_;
    return refusal($view) || checked($view);
}

# 23: some header sets TF1 (byte 5, audio read), TF2 (byte 6, macroblock read) or TF3 (byte 7, time code read)
sub invalid {
    my ($view, $byte) = @_;
    return scalar grep { header_bit($view, @$_, $byte) } sequences($view);
}

# ---- the audio read

# Channel c lies in DIF channel (c-1) div 2; odd c in the first n/2 sequences, even c in the rest
sub sequences_of {
    my ($view, $c) = @_;
    my $s     = $view->{n} / 2;
    my $first = $c % 2 == 1 ? 0 : $s;
    return map { [int(($c - 1) / 2), $_] } $first .. $first + $s - 1;
}

# AS is pack 3 in even sequences, 0 in odd; bytes 3-7 of A0-A8 are packs 0-8
sub as {
    my ($view, $h, $q) = @_;
    return bytes($view, $h, $q, place_of_a($q % 2 == 0 ? 3 : 0), 3, 5);
}

# Mode 1111: invalid audio data, a channel that was not recorded
my $unrecorded = 0b1111;

# The mode of an AS
sub as_mode {
    my ($view, $h, $q) = @_;
    return (as($view, $h, $q))[2] & 0x0F;
}

# The count of an AS, or 0 where it breaks the rules
sub as_count {
    my ($view, $c, $h, $q) = @_;
    my ($pc0, $pc1, $pc2, $pc3, $pc4) = as($view, $h, $q);
    my $own  = $c % 2 == 1 ? 0 : 1;
    my $mode = $pc2 & 0x0F;
    return 0 if $pc0 != 0x50;
    return 0 if $pc1 & 0x80;                           # LF 0
    return 0 if $pc2 & 0x80;                           # bit 7 zero
    return 0 if $pc2 & 0x60;                           # CHN 00
    return 0 if $mode != $own && $mode != $unrecorded;
    return 0 if ($pc3 >> 5 & 1) != $view->{fifty};
    return 0 if ($pc3 & 0x1F) != 0b00011;              # STYPE
    return 0 if $pc4 & 0x3F;                           # SMP and QU 000
    return $view->{counts}{ $pc1 & 0x3F } // 0;        # only the system's own counts
}

# 1, 2, 3: a system, a length or a channel that is none
sub channel_refusal {
    my ($view, $c) = @_;
    return refusal($view) || ($c < 1 || $c > 8 ? 3 : 0);
}

# The number and the count; 24 an AS of the channel breaks the rules, 25 they differ in count or in mode
sub judge_audio {
    my ($view, $c) = @_;
    my $number = checked($view);
    return ($number, 0) if $number;
    return (23, 0) if invalid($view, 5);
    my @counts = map { as_count($view, $c, @$_) } sequences_of($view, $c);
    return (24, 0) if grep { $_ == 0 } @counts;
    my @modes = map { as_mode($view, @$_) } sequences_of($view, $c);
    return (25, 0) if grep { $_ != $counts[0] } @counts;
    return (25, 0) if grep { $_ != $modes[0] } @modes;
    return (0, $counts[0]);
}

sub read_audio {
    my ($view, $c, $room) = @_;
    my $number = channel_refusal($view, $c);
    return ($number, 0) if $number;
    return (4, 0) if $room != $view->{positions};
    return judge_audio($view, $c);
}

# Every AS of the channel says 1111
sub is_unrecorded {
    my ($view, $c) = @_;
    return !grep { as_mode($view, @$_) != $unrecorded } sequences_of($view, $c);
}

# DIF channel, sequence, audio block and byte of sample t
sub place_of_sample {
    my ($n, $c, $t) = @_;
    my $s = $n / 2;
    my $q = (int($t / 3) + 2 * ($t % 3)) % $s;
    $q += $s if $c % 2 == 0;
    my $a    = 3 * ($t % 3) + int($t % (9 * $s) / (3 * $s));
    my $byte = 8 + 2 * int($t / (9 * $s));
    return (int(($c - 1) / 2), $q, $a, $byte);
}

# High byte first; word 8000h is lost
sub sample {
    my ($view, $h, $q, $a, $byte) = @_;
    my ($high, $low) = bytes($view, $h, $q, place_of_a($a), $byte, 2);
    my $word = 256 * $high + $low;
    return $lost if $word == 0x8000;
    return $word < 0x8000 ? $word : $word - 65536;
}

# The samples that an audio read hands out; all are lost where the channel was not recorded
sub samples {
    my ($view, $c, $count) = @_;
    return ($lost) x $count if is_unrecorded($view, $c);
    return map { sample($view, place_of_sample($view->{n}, $c, $_)) } 0 .. $count - 1;
}

# ---- new samples

# 29 not as many as the count, 31 a number that is no sample, 33 a channel that was not recorded
sub replace_number {
    my ($view, $c, @numbers) = @_;
    my $number = channel_refusal($view, $c);
    return $number if $number;
    ($number, my $count) = judge_audio($view, $c);
    return $number if $number;
    return 29 if @numbers != $count;
    return 31 if grep { $_ < -32768 || $_ > $lost } @numbers;
    return is_unrecorded($view, $c) ? 33 : 0;
}

# Lost is 8000h, a level of -32,768 is 8001h, any other level is in two's complement
sub word {
    my ($number) = @_;
    return $number == $lost ? 0x8000 : $number == -32768 ? 0x8001 : $number & 0xFFFF;
}

# Each in its place in the frame
sub replace {
    my ($view, $c, @numbers) = @_;
    for my $t (0 .. $#numbers) {
        my ($h, $q, $a, $byte) = place_of_sample($view->{n}, $c, $t);
        substr $frame, start($view->{n}, $h, $q, place_of_a($a)) + $byte, 2, pack 'n', word($numbers[$t]);
    }
}

# ---- the macroblock read

# Row and column by m
my @row_steps = (2, 6, 8, 0, 4);
my @columns   = (2, 1, 3, 0, 4);

# The number of the macroblock that V(5g+m) carries, or none
sub macroblock_in {
    my ($k, $h, $q, $g, $m) = @_;
    my $z = 27 * $q + $g;
    if ($k == 1) {

        # sequence 11: the edge unit in channel 0, none in channels 1-3
        if ($q == 11) {
            return $h == 0 ? 5940 + 27 * $m + $g : undef;
        }
        return number_of(11, $h, 4 * $h + $z, $m, int($z / 11));
    }

    # ten rows; system 3's sequences 10 and 11 carry none
    return undef if $q > 9;
    return number_of(10, $h, 4 * $h + int($q / 5) + 2 * $z, $m, int($z / 5) % 27);
}

# ((R h + row) 5 + column) 27 + k
sub number_of {
    my ($rows, $h, $i, $m, $k) = @_;
    my $row = ($i % $rows + $row_steps[$m]) % $rows;
    return (($rows * $h + $row) * 5 + $columns[$m]) * 27 + $k;
}

# DIF channel, sequence and V of each macroblock, by a walk over all slots, once for a system
my %slots;

sub slots {
    my ($view) = @_;
    my $k = $view->{k};
    return $slots{$k} if $slots{$k};
    my @slot;
    for my $sequence (sequences($view)) {
        for my $v (0 .. 134) {
            my $number = macroblock_in($k, @$sequence, int($v / 5), $v % 5);
            next unless defined $number;
            die "reads.pl: two slots carry macroblock $number of system $k\n" if $slot[$number];
            $slot[$number] = [@$sequence, $v];
        }
    }
    die "reads.pl: system $k has not all macroblocks\n" if grep { !$_ } @slot[0 .. $view->{macroblocks} - 1];
    return $slots{$k} = \@slot;
}

sub macroblock_number {
    my ($view, $b) = @_;
    my $number = refusal($view);
    return $number if $number;
    return 3 if $b >= $view->{macroblocks};
    return checked($view) || (invalid($view, 6) ? 23 : 0);
}

# Its 77 bytes as a part of the frame, empty exactly when the number is a refusal
sub macroblock {
    my ($view, $b) = @_;
    return () if macroblock_number($view, $b);
    my ($h, $q, $v) = @{ slots($view)->[$b] };
    return bytes($view, $h, $q, place_of_v($v), 3, 77);
}

# ---- the time code read

# SSYB 0-5 in SC0, 6-11 in SC1, eight bytes each from byte 3; its pack comes after three bytes
sub subcode_pack {
    my ($view, $h, $q, $ssyb) = @_;
    return bytes($view, $h, $q, $sc0 + int($ssyb / 6), 3 + 8 * ($ssyb % 6) + 3, 5);
}

# At 50 Hz bit 6 of PC1 is arbitrary: ignored on comparing, answered 1
sub time_code {
    my ($view, $h, $q, $ssyb) = @_;
    my @pack = subcode_pack($view, $h, $q, $ssyb);
    $pack[1] |= 0x40 if $view->{fifty};
    return @pack;
}

# Units 0-9 in the low nibble, tens in so many bits above it, and a number to the most
sub digits {
    my ($byte, $tens, $most) = @_;
    my $units = $byte & 0x0F;
    return $units <= 9 && 10 * ($byte >> 4 & $tens) + $units <= $most;
}

# Frames to 29 or 24, seconds and minutes to 59, hours to 23
sub digits_are_right {
    my ($view, @pc) = @_;
    return
           digits($pc[1], 0b011, $view->{fifty} ? 24 : 29)
        && digits($pc[2], 0b111, 59)
        && digits($pc[3], 0b111, 59)
        && digits($pc[4], 0b011, 23);
}

# 27: time code in 3, 5, 9, 11 and binary group in 4, 10 of the first half; time code in 3, 9 of the second
sub packs_differ {
    my ($view, $time, $group) = @_;
    for my $sequence (sequences($view)) {
        my $first = $sequence->[1] < $view->{n} / 2;
        for my $ssyb ($first ? (3, 5, 9, 11) : (3, 9)) {
            my @pack = time_code($view, @$sequence, $ssyb);
            return 1 if "@pack" ne "@$time";
        }
        for my $ssyb ($first ? (4, 10) : ()) {
            my @pack = subcode_pack($view, @$sequence, $ssyb);
            return 1 if "@pack" ne "@$group";
        }
    }
    return 0;
}

# The number, four bytes of time code and four of binary group; 26: a wrong header, 13h or 14h, or a wrong digit in the first packs
sub read_time {
    my ($view) = @_;
    my @zeros  = (0) x 8;
    my $number = frame_number($view);
    return ($number, @zeros) if $number;
    return (23, @zeros) if invalid($view, 7);
    my @time  = time_code($view, 0, 0, 3);
    my @group = subcode_pack($view, 0, 0, 4);
    return (26, @zeros) if $time[0] != 0x13 || $group[0] != 0x14;
    return (26, @zeros) unless digits_are_right($view, @time);
    return (27, @zeros) if packs_differ($view, \@time, \@group);
    return (0, @time[1 .. 4], @group[1 .. 4]);
}

# ---- survey and salvage

# What an entry of the fault list holds before a call
my $unused = 777;

# Total, kept and the list: room is its length div 4, the first faults are kept, unused entries stay
sub fault_list {
    my ($view, $size) = @_;
    my @found = faults($view);
    my $room  = int($size / 4);
    my $kept  = @found < $room ? @found : $room;
    my @list  = map { @$_ } @found[0 .. $kept - 1];
    return (scalar @found, $kept, @list, ($unused) x ($size - @list));
}

# All positions, channel after channel; demand 3: a sample is lost where its block does not name its place, else as stored there
sub salvaged {
    my ($view) = @_;
    my @numbers;
    for my $c (1 .. 8) {
        for my $t (0 .. $view->{positions} - 1) {
            my ($h, $q, $a, $byte) = place_of_sample($view->{n}, $c, $t);
            push @numbers, fault($view, $h, $q, place_of_a($a)) ? $lost : sample($view, $h, $q, $a, $byte);
        }
    }
    return @numbers;
}

# 4: the buffer for samples is not of eight times the positions
sub salvage_number {
    my ($view, $room) = @_;
    return refusal($view) || ($room != 8 * $view->{positions} ? 4 : 0);
}

# ---- what is printed

# So many numbers are lent in all, and hold this before a call
my $lent = 15_553;
my $mark = 7_777_777;

sub out { print join("\t", @_), "\n" }

# Numbers are printed 32,768 up, one that is no sample as 100,000
sub raised { map { $_ < -32768 || $_ > 32768 ? 100_000 : $_ + 32768 } @_ }

# Adler's checksum, its two halves
sub sums {
    my ($s1, $s2) = (1, 0);
    for my $x (@_) {
        $s1 = ($s1 + $x) % 65521;
        $s2 = ($s2 + $s1) % 65521;
    }
    return ($s1, $s2);
}

# A try of the four reads: their numbers, the count, the marks left, the length of the macroblock, time code and binary group
sub try_reads {
    my ($name, $i, $k, $size, $c, $b, $room) = @_;
    my $view = view($k, $size);
    my ($audio_number, $count) = read_audio($view, $c, $room);
    my ($time_number,  @time)  = read_time($view);
    my @part = macroblock($view, $b);
    my @numbers = (frame_number($view), $audio_number, macroblock_number($view, $b), $time_number);
    out($name, $i, @numbers, $count, $lent - $count, scalar @part, map { sprintf '%02X', $_ } @time);
}

sub size_of { my ($k) = @_; 48_000 * $systems[$k]{n} }

sub try_survey {
    my ($k, $list_size) = @_;
    out('survey', 0, fault_list(view($k, size_of($k)), $list_size));
}

# The answer and the list, the marks left, the checksum of the lent numbers; answers the numbers
sub try_salvage {
    my ($k, $size, $room, $list_size) = @_;
    my $view   = view($k, $size);
    my $number = salvage_number($view, $room);
    my @found  = $number ? (0, 0, ($unused) x $list_size) : fault_list($view, $list_size);
    my @got    = $number ? () : salvaged($view);
    out('salvage', $number, @found, $lent - @got, sums(raised($number ? ($mark) x $room : @got)));
    return @got;
}

# ---- frames

# tests/written.pl's cases, by system and count
my %cases = ('0,1600' => 'A', '0,1602' => 'B', '1,1920' => 'C', '2,1602' => 'D', '3,1920' => 'E');
my (%made, @sound);

# The writer answers 0
sub write_frame {
    my ($k, $count) = @_;
    @sound = sound($count);
    my $case  = $cases{"$k,$count"};
    my $bytes = $made{$case} //= `perl tests/written.pl $case`;
    die "reads.pl: written.pl has not made case $case\n" unless length $bytes == size_of($k);
    substr $frame, 0, length $bytes, $bytes;
    out('frame', $k, $count, 0);
}

# So many numbers of the whole range, the least level first and last
sub known_numbers {
    my ($n) = @_;
    my @x = map { ($_ * 2731 + 7) % 65537 - 32768 } 0 .. $n - 1;
    @x[0, 1, -1] = (-32768, $lost, -32768) if $n > 1;
    return @x;
}

# What written.pl puts in: the sound, as it is read; a level of -32,768 is written 8001h
sub sound {
    my ($count) = @_;
    return as_read(known_numbers(8 * $count));
}

sub as_read { map { $_ == -32768 ? -32767 : $_ } @_ }

# And the bytes of a macroblock
sub picture {
    my ($b) = @_;
    return map { (6 * $_ + int($_ / 37)) % 256 } 77 * $b .. 77 * $b + 76;
}

# ---- what is tried

sub try_audio {
    my ($k, $c) = @_;
    my $view = view($k, size_of($k));
    my ($number, $count) = read_audio($view, $c, $view->{positions});
    my @got   = samples($view, $c, $count);
    my @given = is_unrecorded($view, $c) ? ($lost) x $count : @sound[ ($c - 1) * $count .. $c * $count - 1 ];
    die "reads.pl: audio channel $c is not the one put in\n" if "@got" ne "@given";
    out('audio', $c, $number, $count, sums(raised(@got)), $lent - $count, raised(@got[0, 1, -1]));
}

# The answer, and the checksum of the frame
sub try_new {
    my ($name, $i, $k, $size, $c, $n, $none) = @_;
    my $view    = view($k, $size);
    my @numbers = known_numbers($n);
    $numbers[$none] = 32769 if $none < $n;
    my $number = replace_number($view, $c, @numbers);
    if (!$number) {
        replace($view, $c, @numbers);
        @sound[ ($c - 1) * $n .. $c * $n - 1 ] = as_read(@numbers);
    }
    out($name, $i, $number, sums(unpack 'C*', substr $frame, 0, $size));
}

sub try_macroblock {
    my ($k, $b) = @_;
    my $view = view($k, size_of($k));
    my @got  = macroblock($view, $b);
    my @part = $b < $view->{macroblocks} ? picture($b) : ();
    die "reads.pl: macroblock $b is not the one put in\n" if "@got" ne "@part";
    out('macroblock', $b, macroblock_number($view, $b), scalar @got, sums(@got));
}

# Puts bytes at a byte of a block, and answers what was there
sub put {
    my ($k, $h, $q, $place, $byte, $bytes) = @_;
    my $old = substr $frame, start($systems[$k]{n}, $h, $q, $place) + $byte, length $bytes, $bytes;
    die "reads.pl: a change of block $h,$q,$place that changes nothing\n" if $old eq $bytes;
    return $old;
}

# A byte, tried with audio channel 6, macroblock 2,700 and right lengths, and taken back
sub try_patch {
    my ($name, $i, $k, $h, $q, $place, $byte, $value) = @_;
    my $old = put($k, $h, $q, $place, $byte, chr $value);
    try_reads($name, $i, $k, size_of($k), 6, 2700, $systems[$k]{positions});
    put($k, $h, $q, $place, $byte, $old);
}

# An audio channel of the salvaged: lost samples, zeros from the count on, the checksum, the first
sub try_channel {
    my ($c, @numbers) = @_;
    my @part  = @numbers[ 1620 * ($c - 1) .. 1620 * $c - 1 ];
    my $gone  = grep { $_ == $lost } @part;
    my $zeros = grep { $_ == 0 } @part[1600 .. 1619];
    out('channel', $c, $gone, $zeros, sums(raised(@part)), raised($part[0]));
}

# Bytes of a small generator
sub rubbish {
    my $x = 1;
    for my $i (0 .. length($frame) - 1) {
        substr $frame, $i, 1, chr($x % 256);
        $x = ($x * 75 + 74) % 65537;
    }
}

# ---- the script: on a line a letter, a name and numbers; what stands behind a # is not read

# The numbers that were salvaged last
my @last;

sub run_line {
    my ($letter, $name, @f) = @_;
    if    ($letter eq 'w') { write_frame(@f[0, 1]) }
    elsif ($letter eq 't') { try_reads($name, @f) }
    elsif ($letter eq 'p') { try_patch($name, @f) }
    elsif ($letter eq 'a') { try_audio(@f) }
    elsif ($letter eq 'm') { try_macroblock(@f) }
    elsif ($letter eq 's') { @last = try_salvage(@f) }
    elsif ($letter eq 'v') { try_survey(@f) }
    elsif ($letter eq 'c') { try_channel(@f, @last) }
    elsif ($letter eq 'n') { try_new($name, @f) }
    elsif ($letter eq 'k') { put($f[6] // 0, @f[0 .. 3], chr($f[5]) x $f[4]) }
    elsif ($letter eq 'o') { put(0, @f[3 .. 5], 0, substr $frame, start(10, @f[0 .. 2]), 80) }
    elsif ($letter eq 'r') { rubbish() }
    else                   { die "reads.pl: no such line: $letter\n" }
}

my $script = 'crates/try_reads/stdin';
open my $in, '<', $script or die "reads.pl: $script: $!\n";
while (my $line = <$in>) {
    $line =~ s/#.*//s;
    my @words = split ' ', $line;
    run_line(map { /^0x/ ? hex : $_ } @words) if @words;
}
