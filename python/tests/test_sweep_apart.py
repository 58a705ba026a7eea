"""The sweep by a Dask scheduler, and the plots of its tables: what needs packages that may not be installed."""
import contextlib
import os
import re
import socket
import subprocess
import time

from sweeping import INCREMENT, LEAST, PATIENCE, Sweeps, environment, needs, python_with, whole, without_seconds

WORKER = ["-m", "distributed.cli.dask_worker", "--nthreads", "1", "--nworkers", "1", "--no-dashboard", "--no-nanny"]
SCHEDULER = ["-m", "distributed.cli.dask_scheduler", "--host", "127.0.0.1", "--no-dashboard", "--port"]


def free_port():
    """A port of this machine that nobody listens at."""
    with contextlib.closing(socket.socket()) as it:
        it.bind(("127.0.0.1", 0))
        return it.getsockname()[1]


class Scheduled(Sweeps):
    WORDS = ["sweep", INCREMENT, "--up-to", 5, "--check", "--out", "table.csv"]
    SAID = "63 agree, 0 differ\n"

    def serve(self, *words):
        """A process of Dask, which is killed at the end."""
        it = subprocess.Popen(
            [python_with("distributed"), *words],
            cwd=self.blocks,
            env=environment((), self.blocks),
            stdout=subprocess.DEVNULL,
            stderr=subprocess.DEVNULL,
        )
        self.addCleanup(it.wait)
        self.addCleanup(it.kill)
        return it

    def cluster(self, count):
        """A scheduler with so many workers: the words that name it, and all processes, the scheduler first."""
        port = free_port()
        address = f"tcp://127.0.0.1:{port}"
        served = [self.serve(*SCHEDULER, str(port)), *(self.serve(*WORKER, address) for _ in range(count))]
        until = time.monotonic() + PATIENCE
        while time.monotonic() < until:
            with contextlib.suppress(OSError), socket.create_connection(("127.0.0.1", port)):
                break
            time.sleep(0.1)
        return ["--scheduler", address], served

    def killed_in_the_middle(self, named, process):
        """A sweep by this cluster, of which a process is killed in the middle: status, output and what was said."""
        running = self.start(
            *self.WORDS, *named, python=python_with("distributed"), stdout=subprocess.PIPE, stderr=subprocess.PIPE
        )
        self.wait_for_rows(20, running)
        process.kill()
        out, said = running.communicate(timeout=PATIENCE)
        return running.returncode, out.decode(), said.decode()

    def test_what_is_missing_is_said(self):
        status, _, said = self.call(
            "sweep", LEAST, "--up-to", 0, "--scheduler", "tcp://127.0.0.1:9", blocked=["distributed"]
        )
        self.assertEqual(status, 2)
        self.assert_line(said, "python3-distributed")

    @needs("distributed")
    def test_a_scheduler_that_is_not_there_is_said(self):
        words = ["sweep", LEAST, "--up-to", 0, "--scheduler", f"tcp://127.0.0.1:{free_port()}"]
        status, out, said = self.call(*words, python=python_with("distributed"))
        self.assertEqual((status, out), (2, ""))
        self.assert_line(said, "no scheduler answers at", "dask scheduler")

    @needs("distributed")
    def test_a_worker_that_dies_loses_nothing(self):
        named, (_, worker, _) = self.cluster(2)
        self.assertEqual(self.killed_in_the_middle(named, worker), (0, self.SAID, ""))
        self.assertEqual(without_seconds(self.content()), without_seconds(whole(5)))

    @needs("distributed")
    def test_a_scheduler_that_dies_leaves_a_table_that_can_be_gone_on_with(self):
        named, (scheduler, *_) = self.cluster(1)
        status, _, said = self.killed_in_the_middle(named, scheduler)
        self.assertEqual(status, 2, said)
        self.assert_line(said, "the scheduler at", "has gone", "--resume")
        self.assertLess(self.content().count(b"\n"), 127)
        again, _ = self.cluster(1)
        status, out, _ = self.call(*self.WORDS, "--resume", *again, python=python_with("distributed"))
        self.assertEqual((status, out), (0, self.SAID))
        self.assertEqual(without_seconds(self.content()), without_seconds(whole(5)))


class Plots(Sweeps):
    def test_what_is_missing_is_said(self):
        self.call("sweep", LEAST, "--up-to", 0, "--out", self.table)
        status, _, said = self.call("plot", self.table, blocked=["matplotlib"])
        self.assertEqual(status, 2)
        self.assert_line(said, "python3-matplotlib")

    def test_a_file_that_is_no_table_is_said(self):
        for path, part in ((INCREMENT, "isn't the table of a sweep"), ("nonesuch", "No such file")):
            status, _, said = self.call("plot", path)
            self.assertEqual(status, 2)
            self.assert_line(said, part)

    @needs("matplotlib")
    def test_a_table_is_plotted(self):
        def plot(*words):
            self.assertEqual(self.call("plot", self.table, *words, python=python_with("matplotlib")), (0, "", ""))

        self.call("sweep", INCREMENT, "--up-to", 3, "--check", "--window", "auto", "0,5,11,5", "--out", self.table)
        plot()
        first = self.content(os.path.join(self.folder, "table.svg"))
        self.assertTrue(re.search(rb"<svg [^>]*>", first))
        picture = os.path.join(self.folder, "exits.png")
        plot("--of", "exits", "--out", picture)
        self.assertTrue(self.content(picture).startswith(b"\x89PNG"))
        plot("--of", "elements")
