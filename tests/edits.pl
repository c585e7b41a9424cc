#!/usr/bin/perl
# Tries must-fail edits and keeps all that the prover says of each, since the gate prints no more than a line of it: the log of an edit is
# target/must-fail/CRATE/NAME.log, and its first line is the sum of what it stands on (the edit, the files of its crate and of those
# below, the kit, and its row in docs/PROMISES.md). An edit is left alone whose sum stands in tests/fallen.sums, or in its log.
# usage: tests/edits.pl [--sums] [WORKERS [CRATE ..]]; --sums prints the sum of every edit, as tests/fallen.sums has them, and tries none.
use strict;
use warnings;
use Digest::SHA qw(sha256_hex);
use File::Path qw(make_path remove_tree);
use File::Temp qw(tempdir);

my $sums = @ARGV && $ARGV[0] eq '--sums' ? shift : '';
my $workers = shift // 2;
my %among = map { $_ => 1 } @ARGV;

sub text { my ($path) = @_; open my $in, '<', $path or die "$path: $!"; local $/; <$in> }

# ---- the crates, and the sums of their files
my (%below, @crates);
for (split /\n/, text('crates.txt')) {
    next unless /^([a-z_0-9]+)[^:]*:(.*)/;
    push @crates, $1;
    $below{$1} = [ split ' ', $2 ];
}
my %own = map {
    my $crate = $_;
    my @files = sort split /\n/, `git ls-files -co --exclude-standard crates/$crate/src crates/$crate/specs crates/$crate/proofs`;
    ($crate => sha256_hex(join '', map { -e $_ ? ("$_\n", text($_)) : () } @files))
} @crates;
my %whole;
sub whole { my ($crate) = @_; $whole{$crate} //= sha256_hex(join ' ', $own{$crate}, map { whole($_) } grep { $own{$_} } @{ $below{$crate} }) }
chomp(my $kit = `rt version`);
my %row;
for (split /\n/, text('docs/PROMISES.md')) { $row{"$1/$2"} = $_ if /^\| ([a-z_0-9]+) `([^`]+)` \|/ }

my @edits = map { m{^crates/([^/]+)/must-fail/(.+)\.edit$} ? [ $1, $2 ] : () } sort glob 'crates/*/must-fail/*.edit';
my %sum = map {
    my ($crate, $name) = @$_;
    ("$crate/$name" => sha256_hex(join "\n", $kit, whole($crate), text("crates/$crate/must-fail/$name.edit"), $row{"$crate/$name"} // ''))
} @edits;
if ($sums) {
    printf "%s %s/%s\n", $sum{"$_->[0]/$_->[1]"}, @$_ for @edits;
    exit;
}

# ---- those that are to be tried, a crate's one after the other, the largest crates first
my %kept = -e 'tests/fallen.sums' ? map { (split)[ 1, 0 ] } split /\n/, text('tests/fallen.sums') : ();
my %todo;
for (@edits) {
    my ($crate, $name) = @$_;
    next if %among && !$among{$crate};
    my $sum = $sum{"$crate/$name"};
    next if ($kept{"$crate/$name"} // '') eq $sum;
    my $log = "target/must-fail/$crate/$name.log";
    next if -e $log && text($log) =~ /\A\Q$sum\E\n/;
    unlink $log;
    push @{ $todo{$crate} }, $name;
}
my @queue = sort { @{ $todo{$b} } <=> @{ $todo{$a} } || $a cmp $b } keys %todo;
exit unless @queue;
printf STDERR "edits: trying %d of %d\n", scalar(map { @$_ } values %todo), scalar @edits;

# the files of the crate with an edit's texts in place of theirs
sub edited {
    my ($crate, $name) = @_;
    my ($file, $old, %texts);
    for (split /\n/, text("crates/$crate/must-fail/$name.edit")) {
        if (/^file: (\S+)/) { $file = $1 }
        elsif (/^old: (.*)/) { $old = $1 }
        elsif (/^new: ?(.*)/) {
            my $new = $1;
            $texts{$file} //= text("crates/$crate/$file");
            my $found = () = $texts{$file} =~ /\Q$old\E/g;
            die "$crate/$name: its text stands $found times in $file: $old\n" unless $found == 1;
            $texts{$file} =~ s/\Q$old\E/$new/;
        }
    }
    return \%texts;
}

sub write_to { my ($path, $text) = @_; open my $out, '>', $path or die "$path: $!"; print $out $text; close $out or die "$path: $!" }

# a worker has a copy of the repository, in which one file or some are another while an edit is tried
my @pids;
for my $worker (1 .. $workers) {
    my @mine = map { $queue[$_] } grep { $_ % $workers == $worker - 1 } 0 .. $#queue;
    next unless @mine;
    my $pid = fork // die "fork: $!";
    if ($pid) { push @pids, $pid; next }
    my $room = tempdir(CLEANUP => 1);
    make_path("$room/.git");
    for (split /\n/, `git ls-files -co --exclude-standard crates crates.txt`) {
        next unless -e $_;
        (my $folder = "$room/$_") =~ s{/[^/]*$}{};
        make_path($folder);
        write_to("$room/$_", text($_));
    }
    for my $crate (@mine) {
        system("cd $room/crates/$crate && rt check >/dev/null 2>&1 </dev/null");
        make_path("target/must-fail/$crate");
        for my $name (@{ $todo{$crate} }) {
            my $texts = edited($crate, $name);
            write_to("$room/crates/$crate/$_", $texts->{$_}) for keys %$texts;
            my $said = `cd $room/crates/$crate && rt check 2>&1 </dev/null`;
            write_to("$room/crates/$crate/$_", text("crates/$crate/$_")) for keys %$texts;
            write_to("target/must-fail/$crate/$name.log", $sum{"$crate/$name"} . "\n" . $said);
        }
        remove_tree("$room/crates/$crate/out");
    }
    exit;
}
my $failed = 0;
for (@pids) { waitpid $_, 0; $failed = 1 if $? }
exit $failed;
