"""A tour through states of registrations and reservation, for rows of PERSISTENT RESERVE OUT.

A tour sets a state up, sends commands, observes after each that has changed something, and sets the
state up again before the next command.
"""

from layouts import SERVICE_ACTIONS
from rows_of.lines import raw, request_sense, test_unit_ready
from rows_of.session import Session

A, B, C = 0xA1B2C3D4E5F60718, 0x0123456789ABCDEF, 0x8000000000000001
F = 0xFFFFFFFFFFFFFFFF  # nobody's key
SECTIONS = {
    None: "no reservation",
    0x1: "write exclusive",
    0x3: "exclusive access",
    0x5: "write exclusive, registrants only",
    0x6: "exclusive access, registrants only",
    0x7: "write exclusive, all registrants",
    0x8: "exclusive access, all registrants",
}
ACTIONS = SERVICE_ACTIONS["PERSISTENT RESERVE OUT"]
ACTIONS_OF_BOTH = ACTIONS[:7]  # that disks of both profiles have


def reserve_out(initiator, action, key=0, action_key=0, scope_and_type=0, flags=0):
    """A line of PERSISTENT RESERVE OUT (SPC-4, 6.16)"""
    cdb = bytes([0x5F, ACTIONS.index(action), scope_and_type, 0, 0, 0, 0, 0, 24, 0])
    return raw(initiator, cdb, key.to_bytes(8, "big") + action_key.to_bytes(8, "big")
               + bytes([0, 0, 0, 0, flags, 0, 0, 0]))


def reserve_in(initiator, action, length=0x100):
    """A line of PERSISTENT RESERVE IN (SPC-4, 6.15); 00h is READ KEYS, 01h READ RESERVATION"""
    return raw(initiator, bytes([0x5E, action, 0, 0, 0, 0, 0]) + length.to_bytes(2, "big") + b"\0")


class Tour(Session):
    def __init__(self, registrants, watched, profile="base"):
        """`registrants` are pairs of initiator and key; those `watched` show unit attentions."""
        super().__init__(profile)
        self.registrants, self.watched = registrants, watched
        self.is_set_up = self.is_observed = True
        self.take_attentions()

    def state(self):
        held = self.device.reservations
        return list(held.keys.items()), held.type, held.taker

    def section(self, held_type):
        self.lines.append("# " + SECTIONS[held_type])
        self.hold(held_type)

    def hold(self, held_type):
        """Sets up a state in which the first registrant has reserved the disk, unless None."""
        self.held_type = held_type
        self.set_up()

    def set_up(self):
        """The first registrant clears, all attentions are reported, all register, and one
        reserves."""
        registered = self.device.reservations.keys
        if registered:
            first = min(registered)
            self.send(reserve_out(first, "CLEAR", registered[first]))
        self.take_attentions()
        for initiator, key in self.registrants:
            self.send(reserve_out(initiator, "REGISTER", 0, key))
        if self.held_type:
            initiator, key = self.registrants[0]
            self.send(reserve_out(initiator, "RESERVE", key, 0, self.held_type))
        self.set_up_state = self.state()
        self.is_set_up = True

    def take_attentions(self):
        for initiator in self.device.initiators:
            while self.device.attentions[initiator]:
                self.send(request_sense(initiator))

    def command(self, *parameters):
        """Sends a PERSISTENT RESERVE OUT in the state that was set up, and shows its change."""
        self.attempt(reserve_out(*parameters))

    def attempt(self, line):
        """Does the same with a line."""
        if not self.is_set_up:
            self.set_up()
        generation = self.device.reservations.generation
        self.send(line)
        self.is_observed = False
        if self.state() != self.set_up_state or self.device.reservations.generation != generation:
            self.observe()

    def step(self, *parameters):
        """Sends a command in whatever state there is, and observes."""
        self.send(reserve_out(*parameters))
        self.is_observed = False
        self.observe()

    def observe(self):
        """Keys, reservation and unit attentions, if a command was sent since the last time."""
        if not self.is_observed:
            self.send(reserve_in(7, 0), reserve_in(7, 1), *map(test_unit_ready, self.watched))
        self.is_observed = True
        self.is_set_up = self.state() == self.set_up_state
