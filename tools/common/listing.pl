# Loaded by tools/unchanged: a listing of files, whose every change after a time will be seen.

# File systems on disks of this machine, whose times have nanoseconds: ext4, XFS and Btrfs.
%LOCAL = map { $_ => 1 } 0xef53, 0x58465342, 0x9123683e;

# A time of the last seconds before may be that of a change after it too, as the clock of files goes by steps.
$SECONDS = 2;

# Begins to write a file's pages, and waits for those that are being written.
$WRITE_AND_WAIT = 7;

# Whether these looks are of before a time, so that every change after it gives others.
sub is_settled {
    my ($looks, $since, @names) = @_;
    my %on_device;
    for my $name (@names) {
        my $look = substr $looks, 0, $LOOK, '';
        next if $look eq $ABSENT;
        my ($device, $seconds, $nanoseconds) = unpack 'Q x8 q Q', $look;
        return if $seconds >= $since - $SECONDS || $nanoseconds == 0;
        $on_device{$device} = $name;
    }
    return $looks eq '' && is_local(values %on_device);
}

sub is_local {
    chdir $top or return;
    for my $name (@_) {
        my $system = "\0" x 256;
        return if syscall($STATFS, $name, $system) || !$LOCAL{unpack 'Q', $system};
    }
    return 1;
}

# Writes files out; of other kinds may be folders alone. Of a page that a program changes through a mapping, the first change sets the file's time, and
# then the next one after the page was written out.
sub write_out {
    chdir $top or return;
    for my $name (@_) {
        next if !lstat $name or -d _;
        return unless -f _;
        open my $file, '<', $name or return;
        syscall $SYNC_FILE_RANGE, fileno $file, 0, 0, $WRITE_AND_WAIT and return;
    }
    return 1;
}

# The listing of the files whose names stand on standard input. The names were found at a time or later.
sub listing {
    my ($since) = @_;
    local $/ = "\0";
    binmode $_ for \*STDIN, \*STDOUT;
    chomp(my @names = <STDIN>);
    my (@groups, $last);
    for (@names) {
        return if /\n/;
        my ($folder, $name) = m{^(crates/[^/]+/[^/]+)/(.+)} ? ($1, $2) : ('.', $_);
        push @groups, $folder if !@groups || $folder ne $last;
        $groups[-1] .= "\0$name";
        $last = $folder;
    }
    my $groups = join "\n", @groups;
    is_settled(looks_of($groups), $since, @names) && write_out(@names) or return;
    my $looks = looks_of($groups);
    return is_settled($looks, $since, @names) ? "$boot$kit$groups\n\n$looks" : undef;
}

1;
