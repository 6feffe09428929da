#!/usr/bin/env python3
"""route_table.py PROGRAM .. --device NAME .. [--any]: routes each program on each device, in a pool of processes, and prints a table.

A device is one of those that come with qroute, as ibm_tokyo, or the path of a device file. Depths are of what was written, of all
gates, of CNOTs and of T gates. With --any the programs may have any gates. An example of the module `qroute`; a refusal, or a file
that can't be read, is in the table, in words. Status 2 if no device has a name.
"""

import argparse
import concurrent.futures
import os
import pathlib
import sys

sys.path.insert(0, os.path.dirname(os.path.realpath(__file__)))
import qroute


def device_of(name: str) -> qroute.Device:
    return qroute.Device.load(name) if name.endswith(".toml") else qroute.Device.named(name)


def row(path: str, name: str, any_gates: bool) -> str:
    """The line of the table for a program on a device."""
    head = f"{pathlib.Path(path).stem:24} {pathlib.Path(name).stem:20}"
    try:
        found = qroute.route(pathlib.Path(path).read_bytes(), device_of(name), any_gates=any_gates)
    except qroute.QrouteError as fault:
        return f"{head} {fault}"
    except OSError as fault:
        return f"{head} {fault.filename}: {fault.strerror}"
    counts = [found.swaps, found.cx_before, found.cx_after, found.t_before, found.t_after]
    depths = [found.metrics.depth, found.metrics.cx_depth, found.metrics.t_depth]
    return " ".join([head, *(f"{it:6}" for it in counts + depths)])


def main() -> None:
    parser = argparse.ArgumentParser(description=__doc__, formatter_class=argparse.RawDescriptionHelpFormatter)
    parser.add_argument("program", nargs="+", metavar="PROGRAM")
    parser.add_argument("--device", nargs="+", required=True, metavar="NAME")
    parser.add_argument("--any", action="store_true")
    asked = parser.parse_args()
    for name in asked.device:
        try:
            device_of(name)
        except KeyError as fault:
            parser.error(fault.args[0])
        except (qroute.QrouteError, OSError):
            pass  # its rows say so
    print(f"{'program':24} {'device':20} {'swaps':>6} {'CNOTs':>6} {'after':>6} {'T':>6} {'after':>6} {'depth':>6} {'CNOTs':>6} {'T':>6}")
    with concurrent.futures.ProcessPoolExecutor() as pool:
        jobs = [pool.submit(row, path, name, asked.any) for path in asked.program for name in asked.device]
        for job in jobs:
            print(job.result())


if __name__ == "__main__":
    main()
