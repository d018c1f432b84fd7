"""The texts of bpfrec live's help."""

ABOUT = """\
Records each INTERFACE as a channel, until Ctrl-C, TERM or HUP. Then it records what is in the kernel's buffers, prints
the report, and audits OUT if it is a file. Options may stand anywhere; `--` ends them.
"""
MORE = """\
Without SETTINGS all frames are recorded: the first interface is channel 1, the next channel 2, or the one that
INTERFACE=CHANNEL names by its channel ID. With SETTINGS each interface is one of their channels, which then needs no
feed; a channel without an interface keeps the feed that SETTINGS gives it. INTERFACE=CHANNEL:EXPRESSION gives a channel
the filter that tcpdump makes of an expression, as eth0=1:'udp port 53', with VLAN tags as they are on the wire.
FLIGHT is SETTINGS that need no other word. Each key of its table [run] is an option, as every = "10min" or
chapter11 = true, and `out` is OUT. A [[channel]] must have `id` and `filter`, where "all" keeps all frames, names its
`interface`, and may have a `name`. The command line wins. `bpfrec preflight flight.toml` says what is wrong.
SETTINGS or FLIGHT may be `-`, standard input, which then brings no lines.
In the places of interfaces captures may stand, files that end in .pcap, .pcapng or .cap, as flight.pcap=1:'udp port 53'.
Their origin is the earliest of their frames, or that of --origin.
Lines on standard input change filters: `set <channel> <filter>`, where the filter is a file that is a listing or a text
for bpfrec asm, an expression, as `set 7 udp port 5004`, or all. `mark TEXT` notes an event in the facts of the recording,
with its counter and its time. `status` prints how the run goes, `next` begins the next recording of --every or --size,
`stop` ends the run, and `help` prints what there is. --for SECONDS ends it after that time.

An OUT that exists is refused unless --force is given, and no link is followed. OUT and OUT.json have the mode 0640,
less what umask takes away, or MODE. A packet is written when it is full, when its filter changes, or once its first
frame is half a second old, or SECONDS of --span; with --span 0 it may be of any age. `span` of a [[channel]], as "20ms"
or in ticks of 100 ns, goes ahead of that. What is written is forced to the disk each second, so lost power costs less
than two; with --sync SECONDS at that interval, with 0 never.

The facts of a recording of interfaces are in OUT.json beside it: the origin of its relative time counter (RTC, 10 MHz),
interfaces, settings, filters, marks, what was lost and when, and in the end the report and the audit. What reads
recordings takes times from it.

SECONDS may end with s, m or min, h or d, and BYTES with k, M, G or T, also as kB (powers of 1,000), as 10min, 1h30m
and 2GB. --span, --sync and --require-clock take parts of a second, as 0.25, 100ms or 500us. --buffer takes mebibytes,
or M and G too. --origin takes a time of day too, as 23:36:10: the last such time, in UTC.

With --every SECONDS or --size BYTES it begins a new recording when SECONDS have gone by since the last began, or when
that has at least BYTES bytes; with both, at the first of them. Each recording is complete and audited on its own. A
channel switches between two frames, so that each frame is in exactly one of them, and the counters go on. OUT gives
their names: flight.ch11 makes flight_00001.ch11 and so on, after those that exist. A filter that was changed stays
changed. Each channel needs an interface then; one that has as many frames as its `max` is empty in later recordings.
When a recording has ended, its name is printed, its report and its audit. --keep N keeps the last N that ended, and
--keep-free BYTES removes the oldest until that many bytes are free: only recordings of this run whose audit says yes,
with a line for each. If the disk is full, the next recording begins once a mebibyte is free; it begins too if the
recorder is killed once all interfaces are open, the disk fails to write, or a channel has 896 filters. Without --every
and --size a full disk or a killed recorder ends the run.

With --prefilter the kernel drops what a channel's filter drops, which takes far less time if most frames are dropped.
These frames are not offered to the recorder, so its report doesn't count them, and lines that would change a filter are
refused. Frames with a VLAN tag and those of fewer than 60 bytes always go to the recorder, since the kernel sees them
differently.

Once it records, and at each change, a line says whether the host's clock is synchronised, by how much it is off at most,
and what chrony and ptp4l hold it by, if they run. --require-clock SECONDS refuses to begin with a clock that is not
synchronised or may be off by more, and raises an alarm while it is so later. It judges the
host's clock, also with --clock adapter.

--on-alarm COMMAND runs a program when an alarm begins and when it ends, with four more arguments: `begins` or `ends`,
the alarm's name, its channel or `-`, and what it says in a sentence. COMMAND is split as a shell would, with quotes,
and no shell runs it; its streams are /dev/null. Warnings run nothing. One program runs at a time, and 256 alarms wait at
most. It is ended after 10 s, by TERM and a second later by KILL; at the end of the run all have 10 s together. If it
fails or can't be started a line says so, and the recording never waits for it.

If systemd reads standard error, each line has its priority ahead: <3> alarms and errors, <4> warnings, <6> all else.
Alarms and warnings are lines too then.

Lines come by a Unix socket too, which the owner alone may open: flight.control beside flight.ch11, if interfaces are
recorded, or PATH of --control. `bpfrec tell flight.ch11 LINE` sends one and waits for what it comes to. The socket is
made when the run begins, and removed when it ends; one that a killed run left is replaced.

--publish ADDRESS:PORT sends what is recorded to a ground station by UDP, as packets of Chapter 11, over all recordings of
the run; several times to several. ADDRESS is a host or a multicast group; ttl=N and interface=NAME are the group's, and
datagram=BYTES is the longest datagram. It is bpfrec publish, in a process of its own for which nothing waits. What it
prints is a line of live's. If it dies it is begun again with what comes then, and the status stays as it is.

On a terminal a table shows each second how the recording goes, unless --quiet is given. With --status PORT a page shows
the same to a browser, on this machine alone; with --status ADDRESS:PORT to anybody who reaches the address and asks by
it, or by a NAME of --status-name. The port serves the data too: /status.json as JSON and /metrics for Prometheus.

With --chapter11 it makes OUT.ch10 after each recording whose audit says yes: a whole Chapter 11 file with TMATS, time
packets and an index, by the standard as we know it, as `chapter11` makes it of the facts. A line says what it has, or
why it couldn't be made, which leaves the recording as it is. --utc, --tai, --external and --attribute are those of
`chapter11`, for --publish too. --keep and --keep-free remove it with its recording.

When a recording has ended its facts get its SHA-256, and that of the recording before. With --sign KEY they are signed
then by ssh-keygen, as OUT.json.sig: KEY is a private key without a passphrase, or a public key whose private half an
agent holds. A key that can't sign is refused before anything is begun; facts that can't be signed at the end are said,
with an alarm, and the recording stays. `ssh-keygen -Y verify -n bpfrec` verifies them.

With --no-audit nothing is audited. With --strict the exit status is 5 if an interface lost frames; either way the last
lines say how many.

The capture prints on standard error, a line each second for each interface if there is no table; a line that standard
error has no room for is left out and counted.

It needs bin/bpfrec (make build) and, for interfaces, bin/capture (make build with libpcap-dev) with the permission to
capture. BPFREC and CAPTURE name other programs.

Status: that of the first `bpfrec record` that failed, else of the first `bpfrec audit`, else 1 if capturing failed or
facts couldn't be signed, else that of the first `chapter11`, else 5 if frames were lost and --strict says so. It is 1 if
OUT couldn't be forced to its disk, 2 of wrong arguments, 3 if nothing was begun.
"""
