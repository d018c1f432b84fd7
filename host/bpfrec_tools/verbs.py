"""The verbs of `bpfrec`, as its help lists them."""

from __future__ import annotations

from typing import NamedTuple


class Verb(NamedTuple):
    """A verb: what it does, an example, the endings of the files that its words are, and whether the proved program or a
    tool has it. `*` is any ending, and `-` no file."""

    about: str
    example: str
    kinds: str = ""
    is_proved: bool = False
    is_tool: bool = False


def proved(about: str, example: str, kinds: str = "") -> Verb:
    """A verb of the proved program, whose words stand in their order."""
    return Verb(about, example, kinds, is_proved=True)


def tool(about: str, example: str, kinds: str = "") -> Verb:
    """A verb of a tool."""
    return Verb(about, example, kinds, is_tool=True)


GROUPS = {
    "Record": {
        "preflight": tool("names all that is wrong before a flight", "bpfrec preflight flight.toml", "toml"),
        "live": tool(
            "records network interfaces, and audits the recording",
            "bpfrec live flight.ch11 eth0=1:'udp port 5004'",
            "toml ch11",
        ),
        "tell": tool(
            "sends lines to a recording that goes on, and waits for answers",
            "bpfrec tell flight.ch11 mark gear up",
            "toml ch11",
        ),
    },
    "Look": {
        "follow": tool(
            "gives the frames of a recording that goes on, as pcapng",
            "bpfrec follow flight.ch11 | wireshark -k -i -",
            "ch11",
        ),
        "info": tool(
            "tells what is in a recording, as a text, as JSON or as a page", "bpfrec info flight.ch11", "ch11 ch10"
        ),
    },
    "Hand on": {
        "export": tool(
            "makes a capture or a whole Chapter 11 file of recordings",
            "bpfrec export flight.ch11 flight.pcapng",
            "ch11 ch10 pcapng",
        ),
        "filter": tool(
            "writes what a filter keeps of a capture into a capture",
            "bpfrec filter 'udp port 53' flight.pcap dns.pcapng",
            "pcap pcapng",
        ),
        "publish": tool(
            "sends a recording that goes on to a ground station, by UDP",
            "bpfrec publish flight.ch11 239.1.2.3:50000",
            "ch11",
        ),
        "receive": tool("writes what publish sends into a file", "bpfrec receive 239.1.2.3:50000 flight.ch10", "ch10"),
    },
    "Check": {
        "check": tool("says yes or no of a recording, a run or a whole file", "bpfrec check flight.ch11", "ch11 ch10"),
    },
    "Mend": {
        "salvage": tool("copies what is left of a damaged recording", "bpfrec salvage damaged.ch11 left.ch11", "ch11"),
    },
    "Single steps": {
        "capture": Verb("makes feeds of interfaces and of captures", "bpfrec capture -r flight.pcap=bus.feed", "*"),
        "record": proved(
            "records channels of feeds through their filters", "bpfrec record settings.toml flight.ch11", "toml ch11"
        ),
        "list": proved("prints a line for each packet of a recording", "bpfrec list flight.ch11", "ch11"),
        "extract": proved(
            "writes a channel's frames into a feed", "bpfrec extract flight.ch11 1 bus.feed", "ch11 - feed"
        ),
        "chapter11": proved(
            "makes a whole Chapter 11 file by a text of its setup",
            "bpfrec chapter11 flight.ch11 setup.toml flight.ch10",
        ),
        "audit": proved("judges a recording by its own packets", "bpfrec audit flight.ch11", "ch11 toml ch10 ch11"),
        "upgrade": proved("adds data checksums to an old recording", "bpfrec upgrade old.ch11 new.ch11", "ch11 ch11"),
        "asm": proved("prints the listing of a filter's text", "bpfrec asm arp.bpf", "bpf"),
        "dis": proved("prints the text of a program's listing", "bpfrec dis arp.txt", "txt"),
        "verify": proved("says whether a program may be installed", "bpfrec verify arp.txt", "txt"),
        "run": proved("runs a program on a view", "bpfrec run arp.txt 00112233445566778899aabb0806", "txt -"),
        "simulate": proved("runs the recorder's core by a script", "bpfrec simulate changed_filter.script", "script"),
    },
}
VERBS = {name: verb for group in GROUPS.values() for name, verb in group.items()}
# The modules of the tools, each with a parser and a run.
TOOLS = {name: f"bpfrec_tools.{name}.command" for name, verb in VERBS.items() if verb.is_tool}
ABOUT = "bpfrec records Ethernet channels through filters, and reads the recordings. A verb with * is proved."
MORE = """\
bpfrec help VERB and man bpfrec-VERB say all of one; --version has the version. Options stand anywhere, what is read comes
first and what is written last. `-` is standard input or output where the help of a verb has it."""


def text() -> str:
    """The help of all verbs."""
    lines = ["usage: bpfrec VERB ..", "", ABOUT]
    for title, group in GROUPS.items():
        lines += ["", f"{title}:"]
        for name, verb in group.items():
            lines += [f"  {'*' if verb.is_proved else ' '} {name:<10} {verb.about}", f"{'':15}{verb.example}"]
    return "\n".join([*lines, "", MORE, ""])
