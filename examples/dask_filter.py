#!/usr/bin/env python3
"""Filters large files on many machines by Dask: writes the lines in which a match begins, in order.

usage: examples/dask_filter.py PROGRAM IMAGE FILE.. [--cluster ADDRESS | --workers N] [--block BYTES]

PROGRAM is the built program of crates/example_programs, whose log filter is run, and IMAGE is the image of a pair of
tables. The script cuts each file into blocks of about BYTES bytes (64 MiB by default), always after the end of a line, so
no line is cut in two. It sends the image once to each worker, and a worker runs the filter over one block at a time.
Without --cluster it starts a cluster of N workers (4 by default) on this machine. PROGRAM and the files must have the
same paths on all machines.

The lines go to standard output. Needs the packages dask and distributed (Debian: python3-distributed).
"""
import argparse
import functools
import os
import subprocess
import sys
import tempfile

import dask.bag
from distributed import Client, LocalCluster


def blocks(path, size):
    """The blocks of a file, each as its path, its start and its end: at least `size` bytes, up to the end of a line."""
    total = os.path.getsize(path)
    with open(path, "rb") as file:
        start = 0
        while start < total:
            file.seek(min(start + size, total))
            file.readline()
            end = min(file.tell(), total)
            yield path, start, end
            start = end


@functools.lru_cache(maxsize=1)
def image_file(image):
    """The path of a file with the image, which each process writes once."""
    with tempfile.NamedTemporaryFile(prefix="filter-", suffix=".pair", delete=False) as file:
        file.write(image)
        return file.name


def filtered(block, program, image):
    """The lines of a block in which a match begins."""
    path, start, end = block
    with open(path, "rb") as file:
        file.seek(start)
        text = file.read(end - start)
    done = subprocess.run([program, "log_filter", image_file(image)], input=text, stdout=subprocess.PIPE, check=False)
    if done.returncode > 1:
        raise RuntimeError(f"{path} from {start} to {end}: status {done.returncode}")
    return done.stdout


def options_of():
    parser = argparse.ArgumentParser(description=__doc__, formatter_class=argparse.RawDescriptionHelpFormatter)
    parser.add_argument("program")
    parser.add_argument("image")
    parser.add_argument("files", nargs="+")
    parser.add_argument("--cluster")
    parser.add_argument("--workers", type=int, default=4)
    parser.add_argument("--block", type=int, default=64 << 20)
    return parser.parse_args()


def main():
    options = options_of()
    program = os.path.abspath(options.program)
    with open(options.image, "rb") as file:
        image = file.read()
    cluster = options.cluster or LocalCluster(n_workers=options.workers, threads_per_worker=1, dashboard_address=None)
    with Client(cluster) as client:
        places = [block for path in options.files for block in blocks(os.path.abspath(path), options.block)]
        if not places:
            return
        sent = client.scatter(image, broadcast=True)
        bag = dask.bag.from_sequence(places, npartitions=len(places))
        for part in client.gather(client.compute(bag.map(filtered, program, sent).to_delayed())):
            for lines in part:
                sys.stdout.buffer.write(lines)


if __name__ == "__main__":
    main()
