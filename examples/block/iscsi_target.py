#!/usr/bin/env python3
"""An iSCSI target (RFC 7143), whose commands go unchanged to a Universal Flash Storage device in software.

Each unit of the device is a LUN, and its well-known units have the LUNs of SCSI (C1h). Nobody is
authenticated: it listens on 127.0.0.1 alone. SIGUSR1 cuts the power and leaves what dies program or erase at
that moment as it was, SIGUSR2 leaves it torn; all connections close then. SIGTERM and SIGINT end the target.
docs/CLIENTS.md says more.
"""
import argparse
import sys

from iscsi_keys import TARGET_NAME
from iscsi_session import Session, Sessions
from loop import serve
from machine import ADDRESS, add_options


def main() -> int:
    """Serves until a signal."""
    parser = argparse.ArgumentParser(description=__doc__,
                                     formatter_class=argparse.RawDescriptionHelpFormatter)
    add_options(parser)
    parser.add_argument("--split", action="store_true", help="splits READs, WRITEs and VERIFYs of more blocks than a "
                        "command of the device may have; without it the device refuses them (5/24/00)")
    asked = parser.parse_args()
    sessions = Sessions()
    return serve(asked, lambda machine, connection: Session(machine, connection, sessions, asked.split),
                 lambda port: f"iscsi://{ADDRESS}:{port}/{TARGET_NAME}/0")


if __name__ == "__main__":
    sys.exit(main())
