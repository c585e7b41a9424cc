#!/usr/bin/perl
# What each refused edit of the repository breaks, as tests/edits.pl left it under target/must-fail: of an edit of the ground floor
# (a crate with proofs/Headlines.antt) the headlines of its crate that are false under it, as the edit says, and the laws whose own
# statement or proof fails; of an edit of code the contracts that are not met. A line an edit, as a row of a table. An edit of the ground
# floor that names no headline, or one that still stands, is an error, and so is an edit that breaks nothing.
# usage: tests/fallen.pl [KEPT]: of the edits that the file KEPT names, CRATE/NAME a line, no log is read and no row printed
use strict;
use warnings;

my %kept;
if (@ARGV) {
    open my $in, '<', $ARGV[0] or die "$ARGV[0]: $!";
    while (<$in>) { chomp; $kept{$_} = 1 }
}

# the theorems of a crate's Headlines.antt, each with the text that proves it
sub theorems {
    my ($crate) = @_;
    my (%text, $name);
    open my $in, '<', "crates/$crate/proofs/Headlines.antt" or die "$crate: $!";
    while (<$in>) {
        $name = $1 if /^ *(?:pub )?([a-z]\S*) :/;
        $text{$name} .= $_ if defined $name;
    }
    return \%text;
}

my $bad = 0;
for my $edit (sort glob 'crates/*/must-fail/*.edit') {
    my ($crate, $name) = $edit =~ m{^crates/([^/]+)/must-fail/(.+)\.edit$};
    next if $kept{"$crate/$name"};
    my $log = "target/must-fail/$crate/$name.log";
    my $ground = -e "crates/$crate/proofs/Headlines.antt";
    open my $in, '<', $log or do { print STDERR "tests/fallen.pl: no $log\n"; $bad = 1; next };
    my (@laws, @contracts, %fallen, %seen, %own);
    while (<$in>) {
        # what rests on a law that fell; a long list ends in a count, and then a headline is found by the law that its proof cites
        if (m{/proofs/(\S+)\.antt:\d+:\d+: error: \d+ declarations? that depends? on `([^`]+)`, .* not checked: (.*)}) {
            my ($file, $law, $list) = ($1, $2, $3);
            next unless $file eq 'Headlines';
            $fallen{$_} = 1 for map { s/ .*//r } split /, | and (?=\d+ more)/, $list;
            if ($list =~ /and \d+ more/) {
                my $text = theorems($crate);
                $fallen{$_} = 1 for grep { $text->{$_} =~ /(?<![\w'-])\Q$law\E(?![\w'-])/ } keys %$text;
            }
        }
        elsif (m{/proofs/(\S+)\.antt:\d+:\d+: error: `([^`]+)`: }) {
            my ($file, $law) = ($1, $2);
            next if $seen{"$file $law"}++;
            if ($file eq 'Headlines') { $fallen{$law} = 1 }
            else {
                push @laws, $law;
                $own{"${crate}::" . $1 =~ s{/}{::}gr} = 1 if $file =~ m{^(.+)/(?:Answers|Invariants)$};
            }
        }
        # a contract that the function's own body does not meet, by its answers or by the prover's own search; of a function that calls
        # another which is not proved, where its own proof fails too
        push @contracts, $1 if /^fn (\S+): (?:not proved$|no proof: expected)/ or /^fn (\S+): not proved; it calls / && $own{$1};
    }
    close $in;
    my $broken = $ground ? \@laws : \@contracts;
    if (!@$broken) {
        print STDERR "tests/fallen.pl: $edit breaks no law or contract\n";
        $bad = 1;
    }
    my @false;
    if ($ground) {
        open my $said, '<', $edit or die "$edit: $!";
        while (<$said>) { @false = split /, /, $1 if /^# False under it: (.+)\.$/ }
        close $said;
        for my $headline (@false ? @false : ('(none is named)')) {
            next if $fallen{$headline};
            print STDERR "tests/fallen.pl: $edit: $headline does not fall\n";
            $bad = 1;
        }
    }
    my $list = sub { join ', ', map { "`$_`" } @_ };
    printf "| %s `%s` | %s | %s |\n", $crate, $name, $list->(@false), $list->(@$broken);
}
exit $bad;
