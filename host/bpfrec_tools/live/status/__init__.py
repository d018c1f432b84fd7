"""To see how a run goes: a page, its data as JSON, Prometheus metrics, and a table on the terminal.

How `live` joins it; all calls are made by one thread, and moments are seconds of `time.monotonic()`:

    # Before anything is recorded; 1 ms. It raises BadEndpoint (its status is 2) and NoServer (3), each with its line;
    # `status.address()` is what is printed.
    status = Status(endpoint_in(word), Terminal(2, is_quiet), sync, limit, has_ring)
    status.start()  # begins to serve, once nothing is forked any more that isn't a program of its own; 1 ms
    status.alarm_changed = take  # called with each AlarmChange, by `tick` and `ended`
    status.recording_begun(number, path, [Setup(1, "eth0")], now)  # once the recorder has OUT open; 0.1 ms
    status.capture_counted(interface, counts, now)  # each second of each interface, also with --quiet; 10 us
    status.filter_changed(channel, version, name)  # at `installed CHANNEL VERSION MARK`; 1 us
    status.marked(mark, now)  # at a line `mark`; 1 us
    status.clock_seen(state, most)  # each second; 1 us
    status.synced(now)  # each time when OUT was forced to its disk; 1 us
    status.tick(now)  # each second: 1 ms for 64 channels, and 6 us for each packet that came, of 4,096 at most
    status.recording_ended(number, exit_status, now, report_lines, audit_lines)  # after its audit; as a tick
    status.report(now)  # how it goes, as lines; as a tick
    status.ending()  # once no other recording will begin
    status.ended(now), status.close()  # at the end; close takes a quarter of a second at most

No call waits for a client, a terminal or a pipe. While `Terminal.is_of(stream)`, lines for that stream go through
`Terminal.show`, and `Terminal.note_typed` is told of each line that is read from it.
"""

from bpfrec_tools.live.run.ports import Counts, Setup
from bpfrec_tools.live.status.endpoint import BadEndpoint, Endpoint, NoServer, endpoint_in
from bpfrec_tools.live.status.observer import Status
from bpfrec_tools.live.status.terminal import Terminal

__all__ = ["BadEndpoint", "Counts", "Endpoint", "NoServer", "Setup", "Status", "Terminal", "endpoint_in"]
