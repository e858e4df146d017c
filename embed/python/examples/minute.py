#!/usr/bin/env python3
"""The first minute of README, from Python: it prints what sgrun prints."""
import sys
from typing import Callable, List

from mehdalung import Disk, Reply

REQUEST_SENSE = bytes.fromhex("030000000000")
MINUTE: List[Callable[[Disk], Reply]] = [
    lambda disk: disk.execute(0, REQUEST_SENSE),
    lambda disk: disk.tool(0, "sg_vpd -p lbpv"),
    lambda disk: disk.execute(0, bytes.fromhex("2a000000000000000400"), b"\xab" * 2048),
    lambda disk: disk.tool(0, "sg_unmap -l 1 -n 2"),
    lambda disk: disk.tool(0, "sg_get_lba_status -b -m 72"),
    lambda disk: disk.tool(0, "sg_persist -G -S a1"),
    lambda disk: disk.tool(0, "sg_persist -R -K a1 -T 1"),
    lambda disk: disk.execute(1, REQUEST_SENSE),
    lambda disk: disk.execute(1, bytes.fromhex("2a000000000000000100"), bytes(512)),
]

with Disk() as disk:
    for line, request in enumerate(MINUTE, 1):
        reply = request(disk)
        print(f"line {line}: {reply.status_name}")
        print(reply.text(), end="")
sys.exit(reply.exit_status)
