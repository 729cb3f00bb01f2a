# Perl's LWP: one after the other, each over a connection of its own; by a hint over one that is kept.
use strict;
use LWP::UserAgent;
my ($url, $file, $count, $most) = @ARGV;
open(my $source, '<:raw', $file) or die;
my $wanted = do { local $/; <$source> };
my $agent = LWP::UserAgent->new($most ? (keep_alive => 1) : ());
$| = 1;
print "begins\n";
for (1 .. $count) {
    my $reply = $agent->get($url);
    print $reply->code == 200 ? ($reply->content eq $wanted ? "good" : "another reply") : $reply->code, "\n";
}
