"""Wrong settings, filters, feeds and outputs, each with what bpfrec preflight must say of it, which was written by
hand."""

from typing import NamedTuple

# A broadcast ARP frame of 18 bytes at counter 16, and the same with another type.
ARP_RECORD = bytes.fromhex("100000000000 00 1200 ffffffffffff0200000000010806a1b2c3d4")
OTHER_RECORD = bytes.fromhex("100000000000 00 1200 ffffffffffff0200000000010800a1b2c3d4")
FILES = {
    "arp.txt": b"4,40 0 0 12,21 0 1 2054,6 0 0 4294967295,6 0 0 0,",
    "none.txt": b"1,6 0 0 0,",
    "text.bpf": b"ret #0\n",
    "count.txt": b"2,6 0 0 0,",
    "past.txt": b"1,6 0 0 4294967296,",
    "jump.txt": b"2,5 0 0 1,6 0 0 0,",
    "-": b"2,5 0 0 1,6 0 0 0,",
    "latin.txt": b"1,\n6 0 0 0,\n\xe9",
    "longest.txt": b"1,6 0 0 0,".ljust(1_048_576),
    "longer.txt": b"1,6 0 0 0,".ljust(1_048_577),
    "three.feed": ARP_RECORD + OTHER_RECORD + ARP_RECORD,
    "empty.feed": b"",
    "head.feed": ARP_RECORD + ARP_RECORD[:8],
    "frame.feed": ARP_RECORD + ARP_RECORD[:-1],
    "length.feed": ARP_RECORD + bytes.fromhex("100000000000 04 1100"),
    "marks.feed": ARP_RECORD + bytes.fromhex("100000000000 04 1200"),
    "time.feed": ARP_RECORD + bytes.fromhex("100000000000 00 0000") + ARP_RECORD,
}

HEAD = "[[channel]]\nid = 1\n"
FEED = 'feed = "three.feed"\n'
FILTER = 'filter = "arp.txt"\n'
GOOD = HEAD + FEED + FILTER
SECOND = "[[channel]]\nid = 2\n"
NO_TABLE = "settings 4 Value channel: each channel must be a table, as [[channel]] begins it"


class Case(NamedTuple):
    """Settings, the words after their name, and each fault that must be found, in order."""

    name: str
    settings: str
    faults: list[str]
    words: list[str] = []


SETTINGS_CASES = [
    Case("nothing is wrong", GOOD, []),
    Case(
        "all keys, each at its end",
        "limit = 524_284\nring = 0x1000\nversion = 0\n" + GOOD + "net = 255\nspeed = 15\nmax = 0\n"
        "span = 281474976710655\n",
        [],
    ),
    Case(
        "a mark of the byte order, and lines of another system", "\ufeffring = 1\r\n" + GOOD.replace("\n", "\r\n"), []
    ),
    Case("a value is missing", GOOD + "net = \n", ["s.toml:5: settings 1 Syntax: column 7: <text>"]),
    Case("a text has no end", HEAD + 'feed = "three.feed', ["s.toml:3: settings 1 Syntax: column 19: <text>"]),
    Case("a key twice", GOOD + "id = 2\n", ["s.toml:5: settings 1 Syntax: column <n>: <text>"]),
    Case(
        "past 64 bits",
        GOOD + "max = 9223372036854775808\n",
        ["s.toml:5: channel 1: settings 1 Syntax: max is past the numbers of 64 bits"],
    ),
    Case(
        "unknown keys",
        "# limits\nrings = 1\nlimits = 1\n" + GOOD + '"Net" = 1\n[more]\nkey = 1\n',
        [
            "s.toml:3: settings 2 Unknown limits",
            "s.toml:9: settings 2 Unknown more",
            "s.toml:2: settings 2 Unknown rings",
            "s.toml:8: channel 1: settings 2 Unknown Net",
        ],
    ),
    Case("an unknown key with a line feed", GOOD + '"a\\nb" = 1\n', ["s.toml:1: channel 1: settings 2 Unknown a\\nb"]),
    Case("a table in a channel", GOOD + "[channel.more]\nkey = 1\n", ["s.toml:1: channel 1: settings 2 Unknown more"]),
    Case(
        "missing keys",
        GOOD + "[[channel]]\n",
        [
            "s.toml:5: channel table 2: settings 3 Missing id",
            "s.toml:5: channel table 2: settings 3 Missing feed",
            "s.toml:5: channel table 2: settings 3 Missing filter",
        ],
    ),
    Case(
        "values under their ranges",
        "limit = 16423\nring = 0\nversion = -1\n[[channel]]\nid = 0\n"
        + FEED
        + FILTER
        + "net = -1\nspeed = -1\nmax = -1\nspan = -1\n",
        [
            "s.toml:1: settings 4 Value limit: 16423 is not in 16424 to 524284",
            "s.toml:2: settings 4 Value ring: 0 is not in 1 to 4096",
            "s.toml:3: settings 4 Value version: -1 is not in 0 to 255",
            "s.toml:5: channel table 1: settings 4 Value id: 0 is not in 1 to 65535",
            "s.toml:8: channel table 1: settings 4 Value net: -1 is not in 0 to 255",
            "s.toml:9: channel table 1: settings 4 Value speed: -1 is not in 0 to 15",
            "s.toml:10: channel table 1: settings 4 Value max: -1 is not in 0 to 9223372036854775807",
            "s.toml:11: channel table 1: settings 4 Value span: -1 is not in 0 to 281474976710655",
        ],
    ),
    Case(
        "values over their ranges",
        "limit = 524285\nring = 4097\nversion = 256\n[[channel]]\nid = 65536\n"
        + FEED
        + FILTER
        + "net = 256\nspeed = 16\nspan = 281474976710656\n",
        [
            "s.toml:1: settings 4 Value limit: 524285 is not in 16424 to 524284",
            "s.toml:2: settings 4 Value ring: 4097 is not in 1 to 4096",
            "s.toml:3: settings 4 Value version: 256 is not in 0 to 255",
            "s.toml:5: channel table 1: settings 4 Value id: 65536 is not in 1 to 65535",
            "s.toml:8: channel table 1: settings 4 Value net: 256 is not in 0 to 255",
            "s.toml:9: channel table 1: settings 4 Value speed: 16 is not in 0 to 15",
            "s.toml:10: channel table 1: settings 4 Value span: 281474976710656 is not in 0 to 281474976710655",
        ],
    ),
    Case(
        "values of another type",
        'limit = "65536"\nring = 1.0\nversion = true\n[[channel]]\nid = [1]\nfeed = 1\nfilter = {}\nnet = 2026-11-24\n',
        [
            "s.toml:1: settings 4 Value limit: a text, and it must be a whole number",
            "s.toml:2: settings 4 Value ring: a number with a fraction, and it must be a whole number",
            "s.toml:3: settings 4 Value version: true or false, and it must be a whole number",
            "s.toml:5: channel table 1: settings 4 Value id: a list, and it must be a whole number",
            "s.toml:6: channel table 1: settings 4 Value feed: a number, and it must be a path in quotes",
            "s.toml:7: channel table 1: settings 4 Value filter: a table, and it must be a path in quotes",
            "s.toml:8: channel table 1: settings 4 Value net: a date or a time, and it must be a whole number",
        ],
    ),
    Case("single brackets", GOOD.replace("[[channel]]", "[channel]"), [f"s.toml:1: {NO_TABLE}"]),
    Case("a channel that is no table", "ring = 1\nchannel = [1]\n", [f"s.toml:2: {NO_TABLE}"]),
    Case(
        "tables in one line",
        'channel = [{id = 1, feed = "three.feed"}]\n',
        ["s.toml:1: channel 1: settings 3 Missing filter"],
    ),
    Case("no channel", "ring = 1\n", ["s.toml: settings 5 Channels: no [[channel]]"]),
    Case(
        "65 channels",
        "".join(GOOD.replace("id = 1", f"id = {id}") for id in range(1, 66)),
        ["s.toml:258: channel 65: settings 5 Channels: 65 channels, and at most 64 can be recorded"],
    ),
    Case(
        "repeated channels",
        GOOD + SECOND + FEED + FILTER + GOOD + GOOD,
        ["s.toml:10: channel 1: settings 6 SameChannel 1", "s.toml:14: channel 1: settings 6 SameChannel 1"],
    ),
    Case(
        "a header in a comment",
        "# [[channel]]\n" + GOOD + "net = 256\n",
        ["s.toml:6: channel 1: settings 4 Value net: 256 is not in 0 to 255"],
    ),
]

FILE_CASES = [
    *(
        Case(f"a filter that is {path}", HEAD + FEED + f'filter = "{path}"\n', [f"s.toml:4: channel 1: {fault}"])
        for path, fault in [
            ("no.txt", "file no.txt: missing"),
            ("arp.txt/under", "file arp.txt/under: missing"),
            ("", "file : missing"),
            ("folder", "file folder: a directory"),
            ("latin.txt", "file latin.txt: no UTF-8 in line 3"),
            ("longer.txt", "file longer.txt: longer than 1048576 bytes"),
            ("text.bpf", "listing 1 Syntax 0: filter text.bpf is no listing: bpfrec asm makes one"),
            ("count.txt", "listing 2 Count 2 1: filter count.txt"),
            ("past.txt", "listing 3 Range 8: filter past.txt"),
            ("jump.txt", "refused 6 JumpOut 0: filter jump.txt"),
            ("-", "refused 6 JumpOut 0: filter -"),
        ]
    ),
    Case("the longest filter", HEAD + FEED + 'filter = "longest.txt"\n', []),
    *(
        Case(f"a feed that is {path}", HEAD + f'feed = "{path}"\n' + FILTER, [f"s.toml:3: channel 1: {fault}"])
        for path, fault in [
            ("no.feed", "file no.feed: missing"),
            ("folder", "SourceFault Device: feed folder is a directory"),
            ("head.feed", "SourceFault Truncated: feed head.feed at byte 27, after 1 frames"),
            ("frame.feed", "SourceFault Truncated: feed frame.feed at byte 27, after 1 frames"),
            ("length.feed", "SourceFault Length: feed length.feed at byte 27, after 1 frames"),
            ("marks.feed", "SourceFault Marks: feed marks.feed at byte 27, after 1 frames"),
            ("time.feed", "SourceFault Length: feed time.feed at byte 27, after 1 frames"),
        ]
    ),
    Case("a cut feed of which fewer frames are taken", HEAD + 'feed = "head.feed"\n' + FILTER + "max = 1\n", []),
    Case(
        "a feed with a time mark, of a channel with a span", HEAD + 'feed = "time.feed"\n' + FILTER + "span = 1\n", []
    ),
    Case("an empty feed", HEAD + 'feed = "empty.feed"\n' + FILTER, []),
    Case(
        "all of a channel",
        '[[channel]]\nid = 7\nspeed = 16\nfilter = "jump.txt"\nfeed = "no.feed"\n',
        [
            "s.toml:3: channel 7: settings 4 Value speed: 16 is not in 0 to 15",
            "s.toml:4: channel 7: refused 6 JumpOut 0: filter jump.txt",
            "s.toml:5: channel 7: file no.feed: missing",
        ],
    ),
    Case(
        "one pipe under two names",
        HEAD + 'feed = "live.feed"\n' + FILTER + SECOND + 'feed = "same.feed"\n' + FILTER,
        ["s.toml:7: channel 2: file same.feed: the feed of channel 1 too, and what one of them reads the other lacks"],
    ),
    Case("one file for two channels", GOOD + SECOND + FEED + FILTER, []),
]

OUT_CASES = [
    Case("OUT is new", GOOD, [], ["--out", "new.ch11"]),
    Case("OUT is there", GOOD, [], ["--out", "none.txt"]),
    Case("OUT is a device", GOOD, [], ["--out", "/dev/null"]),
    Case("OUT is the settings", GOOD, ["./s.toml: file ./s.toml: the output is the settings"], ["--out", "./s.toml"]),
    Case(
        "OUT is a filter",
        GOOD,
        ["link: channel 1: file link: the output is this channel's filter, arp.txt"],
        ["--out", "link"],
    ),
    Case(
        "OUT is a feed",
        GOOD,
        ["three.feed: channel 1: file three.feed: the output is this channel's feed, three.feed"],
        ["--out", "three.feed"],
    ),
    Case("OUT is a directory", GOOD, ["folder: file folder: a directory"], ["--out", "folder"]),
    Case("OUT has no name", GOOD, ["new/: file new/: no name of a file"], ["--out", "new/"]),
    Case("OUT has no folder", GOOD, ["no/new.ch11: file no/new.ch11: its folder is missing"], ["--out", "no/new.ch11"]),
    Case("a capture is missing", GOOD, ["no.feed: file no.feed: missing"], ["--capture", "no.feed"]),
    Case(
        "a capture is cut",
        GOOD,
        ["head.feed: SourceFault Truncated: feed head.feed at byte 27, after 1 frames"],
        ["--capture", "head.feed"],
    ),
]

FORBIDDEN_CASES = [
    Case("a forbidden filter", HEAD + FEED + 'filter = "closed"\n', ["s.toml:4: channel 1: file closed: forbidden"]),
    Case("a forbidden feed", HEAD + 'feed = "closed"\n' + FILTER, ["s.toml:3: channel 1: file closed: forbidden"]),
    Case("a forbidden OUT", GOOD, ["closed: file closed: forbidden"], ["--out", "closed"]),
]

ALL_CASES = SETTINGS_CASES + FILE_CASES + OUT_CASES
