#!/usr/bin/env python3
"""Demangles logs that are too large for one machine, on a Dask cluster.

    dask scheduler                                              # on one machine
    dask worker tcp://HOST:8786 --nworkers -1 --nthreads 1      # on each machine
    dask_logs.py --scheduler tcp://HOST:8786 OUT LOG..          # anywhere

Without --scheduler the workers are processes on this machine, one for each core.

Each worker needs the Python module kodliwe and its library. It sees LOG and OUT by the same paths as this program.

A LOG is cut into blocks at line ends, which no symbol crosses. Each block becomes a file of the folder OUT. The files of
OUT, joined in the order of their names (`cat OUT/*`), are byte for byte the output of `kodliwe -i LOG -i LOG..`.

A file of OUT gets its name when it is complete. So a block may be done twice, for example after the loss of a worker,
without any harm. --resume continues an interrupted run.
"""
import argparse
import json
import os
import socket
import sys

import fsspec.utils
import kodliwe
from dask.utils import parse_bytes
from distributed import Client, as_completed

PLAN = ".plan"


def demangle_block(log, offset, size, out, keep_hash):
    """Writes the file of one block, and returns how many bytes of the log it has read.

    The block has the lines that begin after the line end at or after `offset`, up to that at or after `offset + size`.
    """
    with open(log, "rb") as file:
        text = fsspec.utils.read_block(file, offset, size, b"\n")
    folder, name = os.path.split(out)
    unfinished = "%s/.%s.%s.%d" % (folder, name, socket.gethostname(), os.getpid())
    with open(unfinished, "wb") as file:
        file.write(kodliwe.demangle_text(text, hash=keep_hash))
    os.replace(unfinished, out)
    return len(text)


def prepare_folder(out, plan, resume):
    """Makes the folder. Exits if it exists, unless `resume` is set and it was made for the same plan."""
    try:
        os.makedirs(out, exist_ok=resume)
    except FileExistsError:
        sys.exit("%s exists; --resume continues a run" % out)
    stored = os.path.join(out, PLAN)
    if not os.path.exists(stored):
        if os.listdir(out):
            sys.exit("%s has files that this program did not write" % out)
        with open(stored, "w") as file:
            file.write(plan)
    with open(stored) as file:
        if file.read() != plan:
            sys.exit("%s was begun with other logs, or with another --block or --hash" % out)


def remove_unfinished(out):
    """Removes the unfinished files of workers that were lost."""
    for name in os.listdir(out):
        if name.startswith(".0"):
            os.remove(os.path.join(out, name))


def missing_blocks(out, logs, sizes, block, keep_hash):
    """Returns the arguments of `demangle_block` for each block whose file is not in the folder."""
    blocks = []
    for number, (log, size) in enumerate(zip(logs, sizes)):
        for offset in range(0, size, block):
            name = "%s/%06d-%016d" % (out, number, offset)
            if not os.path.exists(name):
                blocks.append((log, offset, block, name, keep_hash))
    return blocks


def connect(address):
    """Returns a client of the scheduler at an address, or of workers on this machine."""
    if address:
        return Client(address)
    # Processes with one thread each: a lost worker loses one block.
    return Client(threads_per_worker=1, dashboard_address=None)


def block_size(text):
    """Returns a number of bytes, such as 64MiB."""
    size = parse_bytes(text)
    if size < 1:
        raise ValueError
    return size


def arguments():
    """Returns the arguments of the command line."""
    parser = argparse.ArgumentParser(description=__doc__, formatter_class=argparse.RawDescriptionHelpFormatter)
    parser.add_argument("--scheduler", metavar="ADDRESS", help="the scheduler's address, tcp://HOST:8786")
    parser.add_argument("--block", type=block_size, default="64MiB", help="bytes of a block (64MiB); a worker needs three times as much")
    parser.add_argument("--hash", action="store_true", help="keep the hashes, as kodliwe --hash does")
    parser.add_argument("--resume", action="store_true", help="keep the blocks that are in OUT, and do the others")
    parser.add_argument("--wait", type=float, default=60, metavar="SECONDS", help="wait for the first worker (60)")
    parser.add_argument("out", metavar="OUT")
    parser.add_argument("logs", metavar="LOG", nargs="+")
    return parser.parse_args()


def main():
    given = arguments()
    out, logs = os.path.abspath(given.out), [os.path.abspath(log) for log in given.logs]
    stats = [os.stat(log) for log in logs]
    plan = [[log, stat.st_size, stat.st_mtime_ns] for log, stat in zip(logs, stats)]
    prepare_folder(out, json.dumps([plan, given.block, given.hash]) + "\n", given.resume)
    blocks = missing_blocks(out, logs, [stat.st_size for stat in stats], given.block, given.hash)
    with connect(given.scheduler) as client:
        client.wait_for_workers(1, timeout=given.wait)
        # Fails here, once, if a worker has no library.
        client.run(kodliwe.demangle, "_ZN3fooE")
        tasks = [client.submit(demangle_block, *block, pure=False, retries=2) for block in blocks]
        read = sum(task.result() for task in as_completed(tasks))
    remove_unfinished(out)
    print("%d blocks, %d bytes" % (len(blocks), read), file=sys.stderr)


if __name__ == "__main__":
    main()
