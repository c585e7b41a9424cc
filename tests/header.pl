#!/usr/bin/perl
# header.pl: what the C header has to declare, made from the sources of the exported functions and of the structs that they
# answer, a line each; with --header, what include/dv100.h declares, in the same form.
use strict;
use warnings;

my $exports = 'crates/dv100/src/lib.rt';
my $structs = 'crates/paper/src/lib.rt';
my $header = 'include/dv100.h';

# Rattle's types as C's; a slice is a pointer and its length
my %number = (u32 => 'uint32_t', i32 => 'int32_t', u8 => 'uint8_t');
my %answer = (u32 => 'uint32_t', IdValues => 'struct dv100_id', Survey => 'struct dv100_survey', Part => 'struct dv100_part',
    AudioAnswer => 'struct dv100_audio', TimeAnswer => 'struct dv100_time');
# the four fields whose names in C say more
my %field = (dseq => 'sequence', dbn => 'block', time => 'time_code', group => 'binary_group');

sub text {
    my ($file) = @_;
    open my $in, '<', $file or die "$file: $!\n";
    local $/;
    return <$in>;
}

# one parameter of Rattle as C's
sub parameter {
    my ($name, $type) = @_;
    return "$number{$type} $name" if $number{$type};
    my ($mut, $element) = $type =~ /^&(mut )?\[(\w+)\]$/ or die "no C for the type $type\n";
    return ($mut ? '' : 'const ') . "$number{$element} *$name, size_t ${name}_length";
}

sub from_sources {
    my @lines;
    my $source = text($exports);
    while ($source =~ /#\[unsafe\(no_mangle\)\]\npub extern "C" fn (\w+)\((.*?)\) -> (\w+)\n/sg) {
        my ($name, $inside, $result) = ($1, $2, $3);
        my @parameters = map { parameter(/^\s*(\w+): (.*?)\s*$/) } grep { /\S/ } split /,/, $inside;
        push @lines, "$answer{$result} $name(" . join(', ', @parameters) . ');';
    }
    my $types = text($structs);
    while ($types =~ /#\[repr\(C\)\]\n(?:#\[derive[^\n]*\n)?pub struct (\w+) \{\n(.*?)\n\}/sg) {
        my ($name, $inside) = ($1, $2);
        my @fields = map { /pub (\w+): (?:\[(\w+); (\d+)\]|(\w+))/ or die "no C for the field $_\n";
            $number{$2 // $4} . ' ' . ($field{$1} // $1) . ($2 ? "[$3]" : '') . ';' } split /\n/, $inside;
        push @lines, "$answer{$name} { @fields };";
    }
    return @lines;
}

sub from_header {
    my $source = text($header);
    $source =~ s{/\*.*?\*/}{}sg;
    $source =~ s/^\s*#.*$//mg;
    $source =~ s/extern "C" \{//;
    my @lines;
    while ($source =~ /(struct dv100_\w+) \{(.*?)\};/sg) {
        my ($name, $inside) = ($1, $2);
        my @fields = map { my ($type, $names) = /^\s*(\w+) (.*)$/s; map { "$type $_;" } split /,\s*/, $names } grep { /\S/ } split /;/, $inside;
        push @lines, "$name { @fields };";
    }
    while ($source =~ /^((?:struct )?\w+ dv100_\w+\([^)]*\);)/mg) {
        push @lines, $1 =~ s/\s+/ /gr;
    }
    return @lines;
}

print "$_\n" for sort(@ARGV && $ARGV[0] eq '--header' ? from_header() : from_sources());
