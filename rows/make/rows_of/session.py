"""A script that depends on what its commands do: a disk of the model runs beside it."""

from device import Device
from words import hex_bytes


class Session:
    def __init__(self, profile="base"):
        self.lines = []
        self.device = Device(4096, 4, profile)

    def send(self, *lines):
        """Adds lines of `raw` to the script, and returns the reply to the last one."""
        for line in lines:
            self.lines.append(line)
            _, initiator, *sent = line.split()
            cdb, data_out = [hex_bytes(word) for word in (*sent, "-")][:2]
            reply = self.device.execute(int(initiator), cdb, data_out)
        return reply
