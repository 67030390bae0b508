"""The program itself: missing, too old, killed, short of memory, stopped by Ctrl-C; and what is left behind."""

from __future__ import annotations

import os
import pickle
import signal
import subprocess
import sys
import textwrap
import threading
import time
from contextlib import suppress
from pathlib import Path
from typing import Callable

import pandas as pd
import pytest
from common import TOP, children, long_run, network, own_programs, program, script, short_run, wait_for

import twarp
from twarp import Network, simulate

ASKED: dict[str, Callable[[twarp.Run], object]] = {
    "stats": lambda run: run.stats(),
    "table": lambda run: run.table(),
    "items": lambda run: run.items(),
    "words": lambda run: run.words(),
    "trace": lambda run: sum(1 for _ in run.trace()),
    "picture": lambda run: run.picture(start=10**7),
    "course": lambda run: run.course("t", "sum"),
}


@pytest.fixture(autouse=True)
def nothing_is_left(tmp_path: Path, monkeypatch: pytest.MonkeyPatch) -> object:
    """No test leaves a program, a thread, an open file or a temporary file behind."""
    room = tmp_path / "room-for-temporary-files"
    room.mkdir()
    monkeypatch.setenv("TMPDIR", str(room))
    threads, files = threading.active_count(), len(os.listdir("/proc/self/fd"))
    yield
    wait_for(lambda: threading.active_count() <= threads)
    assert own_programs() == [] and list(room.iterdir()) == []
    assert len(os.listdir("/proc/self/fd")) <= files


def test_the_program_is_found(tmp_path: Path, monkeypatch: pytest.MonkeyPatch) -> None:
    real = twarp.program.find()
    assert real == os.environ["TWARP"] and twarp.program.version().startswith("twarp ")
    (tmp_path / "bin").mkdir()
    (tmp_path / "bin" / "twarp").symlink_to(real)
    monkeypatch.delenv("TWARP")
    monkeypatch.setenv("PATH", str(tmp_path / "bin"), prepend=os.pathsep)
    assert twarp.program.find() == str(tmp_path / "bin" / "twarp")
    assert short_run().stats().records == 6


def test_the_package_has_the_version_of_the_program() -> None:
    project = (TOP / "python" / "pyproject.toml").read_text()
    assert f'\nversion = "{twarp.__version__}"\n' in project
    assert twarp.program.version().split()[:2] == ["twarp", twarp.__version__]


@pytest.mark.parametrize("ask", ASKED)
def test_no_program(ask: str, tmp_path: Path, monkeypatch: pytest.MonkeyPatch) -> None:
    run = short_run()
    (tmp_path / "text").write_text("no program")
    (tmp_path / "data").write_bytes(b"\x7fELF, no program")
    (tmp_path / "data").chmod(0o755)
    script(tmp_path / "lost", "")
    (tmp_path / "lost").write_text("#!/no/such/shell\n")
    for path in ("/no/such/program", tmp_path / "text", tmp_path, tmp_path / "data", tmp_path / "lost"):
        with program(path), pytest.raises(twarp.ProgramMissing, match="rt run -- demo") as raised:
            ASKED[ask](run)
        assert str(path) in str(raised.value)
        assert str(pickle.loads(pickle.dumps(raised.value))) == str(raised.value)
    monkeypatch.delenv("TWARP")
    monkeypatch.setenv("PATH", str(tmp_path))
    with pytest.raises(twarp.ProgramMissing, match="TWARP is not set, and no twarp is on the path: build it"):
        ASKED[ask](run)


@pytest.mark.parametrize("ask", ASKED)
@pytest.mark.parametrize("text", ["cat", "echo something else", "exit 7", "echo no >&2; exit 2", "echo '{}'; exit 3"])
def test_another_program(ask: str, text: str, tmp_path: Path) -> None:
    run = short_run()
    with program(script(tmp_path / "other", text)):
        if ask == "picture" and text in ("cat", "echo something else"):
            return  # whatever it writes is taken for a picture
        with pytest.raises(twarp.ProgramFailed) as raised:
            ASKED[ask](run)
    if "exit" in text and "{}" not in text:
        assert raised.value.status == int(text[-1])
    assert str(pickle.loads(pickle.dumps(raised.value))) == str(raised.value)


@pytest.mark.parametrize("ask", ["table", "trace"])
def test_a_program_that_goes_on(ask: str, tmp_path: Path) -> None:
    """What is no table ends the reading, also where the program goes on."""
    with program(script(tmp_path / "other", "exec yes '1 2 3'")):
        before = time.monotonic()
        with pytest.raises(twarp.ProgramFailed):
            ASKED[ask](short_run())
        assert time.monotonic() - before < 50


def test_an_old_program(tmp_path: Path) -> None:
    old = script(tmp_path / "old", """set -o pipefail; "$REAL" "$@" | sed -E 's/,"(mean|busy)_of":\\[[^]]*\\]//g'""")
    with program(old):
        stats = short_run().stats()
        assert stats.records == 6 and len(stats.components) == 2
        with pytest.raises(twarp.ProgramTooOld, match="is too old: its stats tell no exact means") as raised:
            stats.figures
    assert str(old) in str(raised.value)


@pytest.mark.parametrize("ask", ASKED)
def test_a_program_that_is_killed(ask: str) -> None:
    run = long_run() if ask != "course" else simulate(endless(), 10**9)
    seen: list[int] = []

    def kill() -> None:
        wait_for(own_programs)
        time.sleep(0.4)
        wait_for(lambda: seen.extend(kill_programs()) or seen)

    killer = threading.Thread(target=kill)
    killer.start()
    with pytest.raises(twarp.ProgramKilled, match=r"killed by signal 9 \(SIGKILL\)") as raised:
        ASKED[ask](run)
    killer.join()
    assert raised.value.signal == 9 and seen
    assert str(pickle.loads(pickle.dumps(raised.value))) == str(raised.value)


def kill_programs() -> list[int]:
    found = own_programs()
    for child in found:
        os.kill(child, signal.SIGKILL)
    return found


def endless() -> Network:
    return Network().add("g", "gen", period=1, value=1).add("t", "tally").couple("g", "t")


def test_want_of_memory(tmp_path: Path) -> None:
    """The system refuses the program memory: by a bound on its address space."""
    big = Network()
    for at in range(1024):
        big.add(f"q{at}", "queue", service=3)
    for at in range(65536):
        big.input(at, f"q{at % 1024}", at)
    bound = script(tmp_path / "bound", 'ulimit -v 9000; exec "$REAL" "$@"')
    calls = [
        lambda: big.check(),
        lambda: simulate(big, 5).stats(),
        lambda: simulate(big, 5).table(),
        lambda: list(simulate(network("sixty-four-hops.json"), 3000, workers=1).trace()),
        lambda: simulate(network("sixty-four-hops.json"), 1000).picture(),
    ]
    with program(bound):
        for call in calls:
            with pytest.raises(twarp.MemoryRefused, match="4 OutOfMemory: the program was refused memory") as raised:
                call()
            assert isinstance(raised.value, MemoryError) and raised.value.number == 4
            assert str(pickle.loads(pickle.dumps(raised.value))) == str(raised.value)


INTERRUPTED = """
    import sys
    import twarp
    from common import long_run
    run = long_run(workers=WORKERS)
    print("ready", flush=True)
    try:
        CALL
    except KeyboardInterrupt:
        print("interrupted", flush=True)
"""


@pytest.mark.parametrize(
    "call, workers",
    [
        ("run.stats()", None),
        ("run.table()", None),
        ("run.words()", None),
        ("run.course('h1', 'x')", None),
        ("run.picture(start=10**7)", None),
        ("[0 for _ in run.trace()]", None),
        ("[0 for _ in run.trace()]", 2),
    ],
)
@pytest.mark.parametrize("whom", ["Python", "all"])
def test_ctrl_c(call: str, workers: object, whom: str) -> None:
    """A signal to Python alone, as a notebook's button sends it, ends the program too; one to both, as a terminal
    sends it, is no other exception."""
    if call.startswith("run.course"):
        text = textwrap.dedent(INTERRUPTED).replace("CALL", "twarp.simulate(endless(), 10**9).course('t', 'sum')")
        text = text.replace("from common import long_run", "from common import long_run\nfrom test_program import endless")
    else:
        text = textwrap.dedent(INTERRUPTED).replace("CALL", call)
    text = text.replace("WORKERS", repr(workers))
    path = os.pathsep.join([os.path.dirname(__file__), os.environ["PYTHONPATH"]])
    python = subprocess.Popen(
        [sys.executable, "-c", text],
        stdout=subprocess.PIPE,
        stderr=subprocess.PIPE,
        env={**os.environ, "PYTHONPATH": path},
        start_new_session=True,
    )
    try:
        assert python.stdout is not None and python.stdout.readline() == b"ready\n"
        wait_for(lambda: children(python.pid))
        time.sleep(0.3)
        wait_for(lambda: python.poll() is not None or children(python.pid))
        programs = children(python.pid)
        (os.kill if whom == "Python" else os.killpg)(python.pid, signal.SIGINT)
        out, err = python.communicate(timeout=20)
    finally:
        python.kill()
        python.wait()
    assert (out, err, python.returncode) == (b"interrupted\n", b"", 0) and programs
    assert not any(Path(f"/proc/{one}").exists() for one in programs)


def test_an_interrupt_is_not_lost(monkeypatch: pytest.MonkeyPatch) -> None:
    """The parser of pandas can lose the exception of a signal, and reads on."""
    parse = pd.read_csv

    def lose(source: object, **options: object) -> object:
        with suppress(KeyboardInterrupt):
            os.kill(os.getpid(), signal.SIGINT)
            time.sleep(1)
        return parse(source, **options)  # type: ignore[call-overload]

    before = signal.getsignal(signal.SIGINT)
    monkeypatch.setattr(pd, "read_csv", lose)
    with pytest.raises(KeyboardInterrupt):
        short_run().table()
    assert signal.getsignal(signal.SIGINT) is before


def test_the_end_of_python_ends_the_program() -> None:
    """An iterator that still stands when Python ends leaves no program behind."""
    text = """
        import sys, os
        from common import long_run, own_programs
        trace = long_run().trace()
        next(trace)
        print(*own_programs(), flush=True)
        sys.modules["kept"] = trace
    """
    path = os.pathsep.join([os.path.dirname(__file__), os.environ["PYTHONPATH"]])
    called = subprocess.run(
        [sys.executable, "-c", textwrap.dedent(text)],
        stdout=subprocess.PIPE,
        stderr=subprocess.PIPE,
        env={**os.environ, "PYTHONPATH": path},
        check=False,
    )
    assert (called.returncode, called.stderr) == (0, b"")
    (one,) = map(int, called.stdout.split())
    assert not Path(f"/proc/{one}").exists()


def test_many_threads() -> None:
    """Runs side by side, each with a program of its own."""
    run, wanted = short_run(), short_run().table()
    wrong: list[object] = []

    def work() -> None:
        for _ in range(10):
            if not run.table().equals(wanted) or len(list(run.trace())) != 6 or simulate(endless(), 9).stats().records != 24:
                wrong.append("other records")

    threads = [threading.Thread(target=work) for _ in range(6)]
    for thread in threads:
        thread.start()
    for thread in threads:
        thread.join()
    assert wrong == []


def test_a_network_of_any_length_by_the_pipe() -> None:
    """A short one goes at once, a long one while the program reads; also to a program that does not read it."""
    for many in (1, 1000, 1024):
        big = Network()
        for at in range(many):
            big.add(f"component-with-a-long-name-{at}", "hop", seed=at, ports=1, spread=1000)
        assert len(big.to_json()) > 65536 or many == 1
        assert big.check().components == many
        with pytest.raises(twarp.RequestError):
            simulate(big, -1).stats()


def test_the_cost_of_a_call() -> None:
    """A call costs at most 15 milliseconds more than the bare program: the least of many, since others work here too."""
    pool = network("pool.json")
    text = pool.to_json().encode()
    words = [twarp.program.find(), "stats", "/dev/stdin", "--until", "40", "--json"]

    def bare() -> None:
        subprocess.run(words, input=text, stdout=subprocess.PIPE, check=True)

    def call() -> None:
        simulate(pool, 40).stats().figures

    def least(what: Callable[[], None]) -> float:
        taken = []
        for _ in range(40):
            begun = time.perf_counter()
            what()
            taken.append(time.perf_counter() - begun)
        return min(taken)

    assert least(call) - least(bare) < 0.015


def test_nothing_is_written_to_the_folder(tmp_path: Path, monkeypatch: pytest.MonkeyPatch) -> None:
    monkeypatch.chdir(tmp_path)
    before = sorted(tmp_path.rglob("*"))
    run = simulate(endless(), 5)
    for ask in ASKED.values():
        ask(run)
    twarp.picture_of_time_warp(endless(), ["step g"])
    assert sorted(tmp_path.rglob("*")) == before


def test_no_temporary_folder_is_needed(monkeypatch: pytest.MonkeyPatch) -> None:
    monkeypatch.setenv("TMPDIR", "/no/such/folder")
    assert short_run().stats().records == 6
