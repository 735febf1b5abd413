"""The issuer security domain: it answers the commands of GlobalPlatform, and has the card's own manager do what they ask for."""
from .channels import KEY_VERSION, PROTOCOLS, Refused
from .registry import read_registry

DOMAIN = bytes.fromhex("A000000151000000")
OWN_MANAGER = bytes.fromhex("00A4040006F04A434D4752")
DONE = b"\x90\x00"
CONFIRMED = b"\0" + DONE  # no receipt
LOADED = (1, 2, 3, 4, 5, 6, 7, 8, 9, 10)  # components: neither Descriptor nor Debug, nor others
PIECE = 240  # bytes of a component in a command
MOST_ANSWERED = 240  # bytes of entries in an answer
SELECTABLE, OP_READY, LOAD_FILE = 0x07, 0x01, 0x01  # life cycle states
FOR_LOAD, FOR_INSTALL, MAKE_SELECTABLE = 0x02, 0x04, 0x08
# Card recognition data: GlobalPlatform 2.2.1, card identification scheme 3, and the secure channel with its option.
GLOBALPLATFORM = "2A864886FC6B"


def tlv(tag, *values):
    """A value in BER-TLV; its length is below 128, or in one or two bytes more."""
    value = b"".join(values)
    size = len(value)
    length = bytes([size]) if size < 128 else bytes([0x81, size]) if size < 256 else b"\x82" + size.to_bytes(2, "big")
    return bytes.fromhex(tag) + length + value


def read_tlv(data, at):
    """The tag of one byte, the value, and where it ends."""
    if at + 2 > len(data):
        raise Refused(0x6A80)
    tag, size, at = data[at], data[at + 1], at + 2
    if size & 0x80:
        count = size & 0x7F
        size, at = int.from_bytes(data[at:at + count], "big"), at + count
    if at + size > len(data):
        raise Refused(0x6A80)
    return tag, data[at:at + size], at + size


def fields(data, count):
    """Values, each after its length, and nothing after them; those that lack at the end are empty."""
    found, at = [], 0
    while at < len(data) and len(found) < count:
        found.append(data[at + 1:at + 1 + data[at]])
        at += 1 + data[at]
    if at != len(data):
        raise Refused(0x6A80)
    return found + [b""] * (count - len(found))


def with_length(value):
    return bytes([len(value)]) + value


class ManagedCard:
    """A card with a security domain before it. It is used as the card is."""

    def __init__(self, card, protocol):
        self.card, self.protocol = card, PROTOCOLS[protocol]
        self.counter = 0
        self.begin()

    def __getattr__(self, name):
        return getattr(self.card, name)

    def begin(self):
        """The domain is selected, without a session and without a load."""
        self.is_selected, self.channel, self.file, self.blocks, self.listed = True, None, None, [], []

    def power_up(self):
        self.begin()
        return self.card.power_up()

    def exchange(self, command):
        """The response; None where the power was cut."""
        try:
            return self.answered(command)
        except Refused as refused:
            return refused.status.to_bytes(2, "big")
        except Down:
            return None

    def answered(self, command):
        if command[:4] == b"\0\xA4\4\0" and len(command) >= 4:
            return self.select(command)
        if not self.is_selected or len(command) < 4:
            return self.passed(command)
        handler = {
            0xCA: self.get_data, 0x50: self.initialize_update, 0x82: self.external_authenticate, 0xE6: self.install, 0xE8: self.load,
            0xE4: self.delete, 0xF2: self.get_status}.get(command[1])
        if handler is None or command[0] & 0xF0 not in (0x00, 0x80):
            return self.passed(command)
        if handler in (self.install, self.load, self.delete, self.get_status):
            if self.channel is None or self.channel.level is None:
                raise Refused(0x6982)
        return handler(self.opened(command))

    def opened(self, command):
        """A command without secure messaging. One that is wrong ends the session."""
        if self.channel is None or self.channel.level is None or command[1] in (0x50, 0x82):
            return command
        try:
            return self.channel.opened(command)
        except Refused:
            self.channel = None
            raise

    def passed(self, command):
        """The response of the card itself."""
        response = self.card.exchange(command)
        if response is None:
            self.channel = None
            raise Down
        return response

    def told(self, command):
        """Tells the card's own manager a command that it has to answer 9000."""
        status = int.from_bytes(self.passed(command), "big")
        if status != 0x9000:
            raise Refused(status)

    def registry(self):
        return read_registry(self.card.image)

    # SELECT and what is answered without a session

    def select(self, command):
        length = command[4] if len(command) > 5 else 0
        aid = command[5:5 + length]
        if aid in (b"", DOMAIN):
            self.told(OWN_MANAGER)
            self.begin()
            return tlv("6F", tlv("84", DOMAIN), tlv("A5", tlv("9F65", b"\xFF"))) + DONE
        response = self.passed(command)
        if response[-2:] == DONE:
            self.is_selected, self.channel = False, None
        elif self.registry().instance(aid) is None and response == b"\x69\x99":
            raise Refused(0x6A82)
        elif self.registry().instance(aid) is not None:
            self.is_selected, self.channel = True, None  # it refused, and none is selected
        return response

    def get_data(self, command):
        tag = command[2:4].hex().upper()
        protocol = bytes([self.protocol.number, self.protocol.option])
        values = {
            "0042": tlv("42"), "0045": tlv("45"), "00C1": tlv("C1", self.counter.to_bytes(2, "big")), "00CF": tlv("CF", bytes(10)),
            "0066": tlv("66", tlv("73", tlv("06", bytes.fromhex(GLOBALPLATFORM + "01")),
                                  tlv("60", tlv("06", bytes.fromhex(GLOBALPLATFORM + "02020201"))),
                                  tlv("63", tlv("06", bytes.fromhex(GLOBALPLATFORM + "03"))),
                                  tlv("64", tlv("06", bytes.fromhex(GLOBALPLATFORM + "04") + protocol)))),
            "00E0": tlv("E0", *(tlv("C0", bytes([number, KEY_VERSION, 0x80 if self.protocol.number == 2 else 0x88, 16])) for number in (1, 2, 3))),
            "9F7F": tlv("9F7F", bytes(42)),
        }
        if tag not in values:
            raise Refused(0x6A88)
        return values[tag] + DONE

    def initialize_update(self, command):
        self.channel = None
        if len(command) not in (13, 14) or command[4] != 8:
            raise Refused(0x6700)
        if command[2] not in (0, KEY_VERSION):
            raise Refused(0x6A88)
        self.channel = self.protocol(command[5:13], self.counter)
        return self.channel.answer + DONE

    def external_authenticate(self, command):
        if self.channel is None or self.channel.level is not None:
            raise Refused(0x6985)
        try:
            self.channel.authenticate(command)
        except Refused:
            self.channel = None
            raise
        self.counter = (self.counter + 1) % 0x10000
        return DONE

    # in a session

    def install(self, command):
        asked, data = command[2], data_of(command)
        if asked == FOR_LOAD:
            self.file, self.blocks = fields(data, 5)[0], []
            if not self.file:
                raise Refused(0x6A80)
            return CONFIRMED
        if asked not in (FOR_INSTALL, MAKE_SELECTABLE, FOR_INSTALL | MAKE_SELECTABLE):
            raise Refused(0x6A86)
        package, module, instance, privileges, parameters, _ = fields(data, 6)
        if asked == MAKE_SELECTABLE:
            if self.registry().instance(instance) is None:
                raise Refused(0x6A88)
            return CONFIRMED
        return self.make_instance(package, module, instance or module, privileges, parameters)

    def make_instance(self, package, module, instance, privileges, parameters):
        registry = self.registry()
        found = registry.package(package)
        if found is None or module not in found.applets:
            raise Refused(0x6A88)
        if registry.instance(instance) is not None:
            raise Refused(0x6A80)
        tag, value, _ = read_tlv(parameters, 0) if parameters else (0xC9, b"", 0)
        if tag != 0xC9:
            raise Refused(0x6A80)
        values = with_length(module) + with_length(instance) + with_length(privileges) + with_length(value)
        if len(values) - 1 - len(module) > 127:
            raise Refused(0x6A80)
        self.told(b"\x80\xB8\0\0" + with_length(values))
        return CONFIRMED

    def load(self, command):
        """Blocks of a load file. After the last one the card loads what they make up."""
        if self.file is None:
            raise Refused(0x6985)
        if command[3] != len(self.blocks) & 0xFF:
            raise Refused(0x6A86)
        self.blocks.append(data_of(command))
        if not command[2] & 0x80:
            return CONFIRMED
        file, self.file = self.file, None
        data = load_file(b"".join(self.blocks))
        self.told(b"\x80\xB0\0\0")
        for tag, component in components(data, file):
            self.told(bytes([0x80, 0xB2, tag, 0]))
            for at in range(0, len(component), PIECE):
                self.told(bytes([0x80, 0xB4, tag, 0]) + with_length(component[at:at + PIECE]))
            self.told(bytes([0x80, 0xBC, tag, 0]))
        self.told(b"\x80\xBA\0\0")
        return CONFIRMED

    def delete(self, command):
        raise Refused(0x6985)  # nothing can be deleted

    def get_status(self, command):
        """Entries of one kind, filtered by the beginning of an AID; what does not fit comes by the next command."""
        kind, control, data = command[2], command[3], data_of(command)
        if not control & 0x01:
            tag, start, _ = read_tlv(data, 0) if data else (0x4F, b"", 0)
            if tag != 0x4F:
                raise Refused(0x6A80)
            self.listed = [entry for aid, entry in self.entries(kind, bool(control & 0x02)) if aid.startswith(start)]
        if not self.listed:
            raise Refused(0x6A88)
        told = b""
        while self.listed and len(told) + len(self.listed[0]) <= MOST_ANSWERED:
            told += self.listed.pop(0)
        return told + (b"\x63\x10" if self.listed else DONE)

    def entries(self, kind, is_tlv):
        """The AIDs of what is of a kind, each with its entry."""
        registry = self.registry()
        if kind == 0x80:
            yield DOMAIN, entry(is_tlv, DOMAIN, OP_READY, b"\x9E", tail=tlv("CC", DOMAIN))
        elif kind == 0x40:
            for each in registry.instances:
                yield each.aid, entry(is_tlv, each.aid, SELECTABLE, b"\0", tail=tlv("C4", each.package.aid) + tlv("CC", DOMAIN))
        elif kind in (0x20, 0x10):
            for each in registry.packages:
                modules = each.applets if kind == 0x10 else None
                tail = tlv("CE", each.version) + b"".join(tlv("84", aid) for aid in modules or []) + tlv("CC", DOMAIN)
                yield each.aid, entry(is_tlv, each.aid, LOAD_FILE, b"\0", tail, modules, is_file=True)
        else:
            raise Refused(0x6A86)


class Down(Exception):
    """The card has no power."""


def entry(is_tlv, aid, state, privileges, tail, modules=None, is_file=False):
    """An entry of GET STATUS, in TLV or as older clients ask for it. A load file has no privileges in TLV."""
    if is_tlv:
        of_application = b"" if is_file else tlv("C5", privileges + bytes(3 - len(privileges)))
        return tlv("E3", tlv("4F", aid), tlv("9F70", bytes([state])), of_application, tail)
    listed = b"" if modules is None else bytes([len(modules)]) + b"".join(map(with_length, modules))
    return with_length(aid) + bytes([state]) + privileges + listed


def data_of(command):
    return command[5:5 + command[4]] if len(command) > 5 else b""


def load_file(data):
    """The load file data block (C4) in the blocks, after what signs it (E2), if anything."""
    at = 0
    while at < len(data):
        tag, value, at = read_tlv(data, at)
        if tag == 0xC4:
            return value
        if tag != 0xE2:
            break
    raise Refused(0x6A80)


def components(data, aid):
    """The components of a load file that the card takes, each with its tag. The package has to be the one that was announced."""
    at = 0
    while at < len(data):
        if at + 3 > len(data):
            raise Refused(0x6A80)
        tag, size = data[at], int.from_bytes(data[at + 1:at + 3], "big")
        component = data[at:at + 3 + size]
        if len(component) != 3 + size:
            raise Refused(0x6A80)
        if tag == 1 and component[13:13 + component[12]] != aid:
            raise Refused(0x6A80)
        if tag in LOADED:
            yield tag, component
        at += 3 + size
