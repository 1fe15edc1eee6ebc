"""Several workers on one machine: a process each, whose lines are passed on, and the report meanwhile.

Asked to stop, by Ctrl-C or another signal, it passes the signal on to each worker, which gives its ticket back, and waits for them all.
"""

from __future__ import annotations

import signal
import subprocess
import sys
import threading
from collections.abc import Callable, Sequence
from types import FrameType

from rich.console import Console
from rich.live import Live

from ..refusals import Refused
from .report import drawn, report
from .store import Problem, Snapshot

REFRESH = 0.5
"""Seconds between two looks at the book."""


class Supervisor:
    """Starts workers and waits for them."""

    def __init__(self, command: Sequence[str], workers: int, say: Callable[[str], None]) -> None:
        self.say = say
        self._stopping = False
        self._workers = [self._started(command) for _ in range(workers)]
        self._threads = [threading.Thread(target=self._pass_on, args=pair, daemon=True) for pair in enumerate(self._workers, 1)]

    @staticmethod
    def _started(command: Sequence[str]) -> subprocess.Popen[str]:
        # In a process group of its own, so that Ctrl-C reaches it once, from here.
        return subprocess.Popen(
            [sys.executable, "-m", "kaldvemir", *command],
            stdout=subprocess.PIPE,
            stderr=subprocess.STDOUT,
            text=True,
            process_group=0,
        )

    def _pass_on(self, number: int, worker: subprocess.Popen[str]) -> None:
        assert worker.stdout is not None
        for line in worker.stdout:
            self.say(f"worker {number}: {line.rstrip()}")

    def _forward(self, number: int, _: FrameType | None) -> None:
        self._stopping = True
        for worker in self._workers:
            if worker.poll() is None:
                worker.send_signal(signal.SIGTERM if number == signal.SIGHUP else number)

    def run(self, look: Callable[[], Snapshot], console: Console) -> int:
        """Waits for all workers to end, and shows the report meanwhile where there is a terminal: the exit status."""
        for number in (signal.SIGINT, signal.SIGTERM, signal.SIGHUP):
            signal.signal(number, self._forward)
        for thread in self._threads:
            thread.start()
        if console.is_terminal:
            with Live(console=console, refresh_per_second=4, transient=True) as live:
                while self._running():
                    self._show(look, live)
        for worker, thread in zip(self._workers, self._threads):
            worker.wait()
            thread.join()
        return self._status()

    def _running(self) -> bool:
        for worker in self._workers:
            try:
                worker.wait(REFRESH)
            except subprocess.TimeoutExpired:
                return True
        return False

    @staticmethod
    def _show(look: Callable[[], Snapshot], live: Live) -> None:
        try:
            live.update(drawn(report(look())))
        except (Problem, Refused):
            return  # the workers say what is wrong

    def _status(self) -> int:
        for number, worker in enumerate(self._workers, 1):
            if worker.returncode < 0:
                name = signal.Signals(-worker.returncode).name
                self.say(f"worker {number} was ended by {name}; its share is free once its lease has lapsed")
        statuses = [worker.returncode if worker.returncode >= 0 else 128 - worker.returncode for worker in self._workers]
        if 1 in statuses or self._stopping:
            return 1 if 1 in statuses else max(statuses)
        # A census that one worker saw complete is complete, whatever became of another.
        return min(statuses)
