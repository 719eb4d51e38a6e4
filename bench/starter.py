"""Calls that start programs are made in a small process of their own: a program's resident memory is never told below
that of the process that started it."""
import concurrent.futures
import multiprocessing
import signal

STARTER = concurrent.futures.ProcessPoolExecutor(1, multiprocessing.get_context("fork"))


def started(call, *arguments):
    """What a call answers there. The first call makes the process, as small as the caller is then."""
    return STARTER.submit(call, *arguments).result()


def make_starter():
    """Makes the process, which leaves Ctrl-C to the caller."""
    started(ignore_interrupts)


def ignore_interrupts():
    signal.signal(signal.SIGINT, signal.SIG_IGN)
