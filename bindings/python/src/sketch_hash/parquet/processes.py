"""Work on many files in several processes, which all end at once: by Ctrl-C, by SIGTERM, or if the first of them is killed."""
import concurrent.futures
import multiprocessing
import multiprocessing.resource_tracker
import os
import queue
import signal
import socket
import threading
import time

from .files import CHANGES, remove_unfinished

GRACE = 1  # second, in which a process removes the file in work
PROCESSES = []


def on_stop(act):
    """Calls act(number) in a thread after SIGINT or SIGTERM.

    An exception of a signal handler can be lost, in a callback of the garbage collector, or be late: if the main thread begins
    to wait just after a signal, its handler runs at the end of the wait. The interpreter writes to this socket at once.
    """
    read_end, write_end = socket.socketpair()
    write_end.setblocking(False)
    signal.set_wakeup_fd(write_end.fileno(), warn_on_full_buffer=False)

    def wait(write_end):
        while (number := read_end.recv(1)[0]) not in (signal.SIGINT, signal.SIGTERM):
            pass
        act(number)

    for number in (signal.SIGINT, signal.SIGTERM):
        if signal.getsignal(number) != signal.SIG_IGN:  # as in a shell's background
            signal.signal(number, lambda *_: None)
    threading.Thread(target=wait, args=(write_end,), daemon=True).start()


def end(status):
    """Ends the process, and those that it has started, without the files in work. Nothing is created or renamed meanwhile."""
    CHANGES.acquire()
    for process in PROCESSES:
        process.terminate()
    latest = time.monotonic() + GRACE
    for process in PROCESSES:
        process.join(max(0, latest - time.monotonic()))
    for process in PROCESSES:
        process.kill()
    remove_unfinished()
    os._exit(status)


def end_of_signal(number):
    end(128 + number)


class Worker:
    """A process that works on one file after another."""

    def __init__(self, task):
        self.connection, theirs = multiprocessing.Pipe()
        # It must not get Ctrl-C too, not even while it starts. The tracker would unblock the signal.
        multiprocessing.resource_tracker.ensure_running()
        if hasattr(signal, "pthread_sigmask"):
            signal.pthread_sigmask(signal.SIG_BLOCK, [signal.SIGINT])
        self.process = multiprocessing.get_context("spawn").Process(target=work, args=(theirs, task))
        with CHANGES:
            self.process.start()
            PROCESSES.append(self.process)
        theirs.close()

    def run(self, file):
        self.connection.send(file)
        return self.connection.recv()

    def close(self):
        self.connection.close()
        self.process.join()


def work(connection, task):
    """Runs the task on each file that comes. The end of the connection is also that of the process which has it."""
    on_stop(end_of_signal)
    files = queue.SimpleQueue()

    def receive():
        try:
            while True:
                files.put(connection.recv())
        except (EOFError, OSError):
            end(0)

    threading.Thread(target=receive, daemon=True).start()
    try:
        while True:
            connection.send(task(files.get()))
    except OSError:
        end(0)


def each(task, files, jobs, failed):
    """The result of the task for each file, or failed(file, reason) if there was no process for it, or that was killed."""
    if jobs == 1:
        yield from map(task, files)
        return
    idle = queue.SimpleQueue()

    def run(file):
        try:
            worker = idle.get_nowait()
        except queue.Empty:
            try:
                worker = Worker(task)
            except OSError as error:
                return failed(file, f"no process can be started: {error}")
        try:
            result = worker.run(file)
        except (EOFError, OSError):
            time.sleep(0.2)  # the signal that ended it may be on its way to this process too
            with CHANGES:  # which a stopped run never gives back: so it says nothing of those that it ends
                return failed(file, "its process was killed")
        idle.put(worker)
        return result

    with concurrent.futures.ThreadPoolExecutor(jobs) as pool:
        yield from pool.map(run, files)
    while not idle.empty():
        idle.get().close()
