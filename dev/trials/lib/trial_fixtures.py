"""What pytest gives to each trial: a folder, a network namespace, and a look at what is missing here."""

import contextlib
import shutil
import signal
import sys
import tempfile
from collections.abc import Callable, Iterator
from pathlib import Path
from typing import TYPE_CHECKING

import pytest

sys.dont_write_bytecode = True
import namespace as namespaces
import recorder
import support

if TYPE_CHECKING:
    from bpfrec_tools.live.parts.loop import Signals

ENDED_BY = 128
# The folders whose trials take longest.
LONGEST = ("long", "wireshark")


def end_by_signal(number: int, _: object) -> None:
    pytest.exit(f"ended by {signal.Signals(number).name}", returncode=ENDED_BY + number)


def pytest_configure(config: pytest.Config) -> None:
    # A shell that starts this in the background ignores INT, and so would all that is tried.
    signal.signal(signal.SIGINT, signal.default_int_handler)
    for number in (signal.SIGTERM, signal.SIGHUP):
        signal.signal(number, end_by_signal)


@pytest.hookimpl(tryfirst=True)  # type: ignore[misc]
def pytest_collection_modifyitems(items: list[pytest.Item]) -> None:
    """Gives each file to one process, and those that judge times to the same one; those that take longest begin first."""
    for item in items:
        is_timed = item.get_closest_marker("timed") is not None
        item.add_marker(pytest.mark.xdist_group("timed" if is_timed else item.nodeid.partition("::")[0]))
    items.sort(key=lambda item: item.get_closest_marker("timed") is None and item.path.parent.name not in LONGEST)


@pytest.hookimpl(tryfirst=True)  # type: ignore[misc]
def pytest_runtest_setup(item: pytest.Item) -> None:
    """Leaves a trial out that needs what isn't here, by its marks `wanted` and those of its file."""
    lacking = support.missing(dict.fromkeys(name for mark in item.iter_markers("wanted") for name in mark.args))
    if lacking:
        pytest.skip(f"it needs {', '.join(lacking)}")


def made_folder() -> Iterator[Path]:
    with tempfile.TemporaryDirectory(prefix="bpfrec_trial_", ignore_cleanup_errors=True) as folder:
        (Path(folder) / "private").mkdir()
        yield Path(folder)


@pytest.fixture
def work() -> Iterator[Path]:
    """A folder of the trial's own, with a folder for the temporary files of what it runs."""
    yield from made_folder()


@pytest.fixture(scope="module")
def place() -> Iterator[Path]:
    """A folder for what the trials of a file share."""
    yield from made_folder()


@pytest.fixture(scope="module")
def seen_calls(place: Path) -> Path:
    """The library of dev/trials/lib/seen_calls.c."""
    return support.shared_library(support.LIBRARY / "seen_calls.c", place / "seen_calls.so")


@pytest.fixture
def sample(work: Path) -> Path:
    """A recording of one frame, whose counter is 32."""
    return Path(shutil.copy(recorder.RECORDINGS / "two_versions_checked.ch11", work / "x.ch11"))


@pytest.fixture(scope="module")
def three(place: Path) -> Path:
    """A recording of three channels."""
    # Here, since other trials read no recording.
    from reading import recording_of_three

    return recording_of_three(place)


@pytest.fixture(scope="module")
def long_feed(place: Path) -> Path:
    """A feed of a million frames."""
    return recorder.make_feed(place / "long.feed", recorder.MANY)


@pytest.fixture
def flight(work: Path) -> Iterator[object]:
    """A run whose status is served: a Flight of dev/trials/lib/scripted.py."""
    # Here, since other trials need none of the status.
    from asking import served

    with served(work) as made:
        yield made


@pytest.fixture(scope="module")
def browser(place: Path) -> Iterator[object]:
    """A Browser of dev/trials/lib/browser.py, whose pictures have a folder."""
    from browser import Browser
    from status_pages import PICTURES

    PICTURES.mkdir(parents=True, exist_ok=True)
    made = Browser(place / "profile")
    yield made
    made.close()


@pytest.fixture
def flown(work: Path) -> Iterator[Callable[..., object]]:
    """Makes runs that are served, with so many seconds behind them; the served age is that of a run that goes on."""
    from scripted import Flight, Wire, status

    made: list[Flight] = []

    def fly(wires: dict[int, Wire], seconds: int = 75) -> Flight:
        (work / str(len(made))).mkdir()
        flight = Flight(work / str(len(made)), wires, endpoint=status.endpoint_in("0"))
        support.present(flight.status.server).answers.clock = lambda: flight.now() + 0.2
        flight.begin()
        flight.pass_seconds(seconds)
        made.append(flight)
        return flight

    yield fly
    for page in made:
        page.status.close()


@contextlib.contextmanager
def entered() -> Iterator[None]:
    """A network namespace while it lasts; what needs it is left out where none can be made."""
    if support.missing(["root"]):
        pytest.skip("it needs root, for a network namespace")
    with contextlib.ExitStack() as stack:
        try:
            stack.enter_context(namespaces.own_namespace())
        except OSError as error:
            pytest.skip(f"no network namespace can be made here: {error}")
        support.run("ip", "link", "set", "lo", "up")
        yield


@pytest.fixture
def namespace() -> Iterator[None]:
    """A network namespace of the trial's own, with the pairs tx0 and rx0, tx1 and rx1."""
    with entered():
        namespaces.make_pair(0)
        namespaces.make_pair(1)
        yield


@pytest.fixture(scope="session")
def entering() -> Callable[[], contextlib.AbstractContextManager[None]]:
    """For what a file's trials share: a namespace without interfaces, while it lasts."""
    return entered


@pytest.fixture
def signals() -> Iterator["Signals"]:
    """Those of live, while it lasts."""
    from bpfrec_tools.live.parts.loop import Signals

    numbers = (signal.SIGINT, signal.SIGTERM, signal.SIGHUP, signal.SIGCHLD, signal.SIGTTIN, signal.SIGTTOU)
    before = {it: signal.getsignal(it) for it in numbers}
    yield Signals()
    signal.set_wakeup_fd(-1)
    for number, handler in before.items():
        signal.signal(number, handler)
