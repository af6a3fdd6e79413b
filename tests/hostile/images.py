"""Images as docs/DISK.md writes them: the bytes of a state, and the state of such bytes, by the plain model. With withdrawals they
are of version 2, which has one byte more before all, and behind all the numbers of the statements that were withdrawn."""
import re

import switches
from history import MOST_STATEMENTS, History
from pcfs_audit_model import cited_bytes
from pcfs_formats import short
from pcfs_model import FIRST, LAST, MOST_ATTRIBUTES, MOST_FILE, MOST_NODES, MOST_TOGETHER
from pcfs_model import Bad, Bytes, Node, Undecided, grant_bytes, is_text, need

LAST_EVENT = 2**48 - 1
KINDS = ["file", "directory"]
VERSION = b"\x02"
NAME = re.compile("[A-Za-z0-9_.-]{1,64}")
ATTRIBUTE = re.compile("[a-z][a-z0-9_.]{0,63}")


def long(data):
    return len(data).to_bytes(4, "big") + data


def counted(parts):
    return len(parts).to_bytes(4, "big") + b"".join(parts)


def node_bytes(number, node):
    attributes = b"".join(short(name) + short(value) for name, value in sorted(node.attributes.items()))
    head = number.to_bytes(8, "big") + bytes([KINDS.index(node.kind) + 1]) + short(node.owner) + node.parent.to_bytes(8, "big") + short(node.name)
    return head + bytes([len(node.attributes)]) + attributes + long(node.contents)


def withdrawn_in_order(state):
    return sorted(state.withdrawn)


def image_of(state, withdrawn=None):
    """The image of a state, with these numbers of withdrawn statements if any are given."""
    statements = [one.statement.bytes + long(one.signature) for one in state.registrations]
    issues = [cited_bytes(one.numbers) + long(one.proof_bytes) + grant_bytes(one.grant) for one in state.grantings]
    nodes = [node_bytes(number, node) for number, node in sorted(state.nodes.items())]
    head = state.moment.to_bytes(8, "big", signed=True) + state.count.to_bytes(8, "big") + state.next.to_bytes(8, "big")
    image = head + counted(statements) + counted(issues) + counted(nodes)
    if not switches.withdrawals:
        return image
    numbers = withdrawn_in_order(state) if withdrawn is None else withdrawn
    return VERSION + image + counted([one.to_bytes(4, "big") for one in numbers])


def is_versioned(image):
    """Whether the image has a version. With names those of earlier programs are read too: they have none."""
    return switches.withdrawals and (image[:1] == VERSION or not switches.names)


def count_in(image):
    """The number of the last event before the image."""
    begin = 8 + (len(VERSION) if is_versioned(image) else 0)
    return int.from_bytes(image[begin : begin + 8], "big")


def is_name(name):
    return NAME.fullmatch(name) is not None and name not in (".", "..")


class ImageReader:
    """Reads an image; Bad if the bytes are none, or its nodes no tree within the limits."""

    def __init__(self, reader, image):
        self.reader, self.reading = reader, Bytes(image)

    def many(self, one):
        return [one(self.reading) for _ in range(self.reading.number(4))]

    def whole(self):
        """The moment, the number of the last event, that of the next node, statements, issues, nodes, and the withdrawn numbers."""
        reading = self.reading
        try:
            versioned = is_versioned(reading.data)
            need(not versioned or reading.take(1) == VERSION)
            moment = int.from_bytes(reading.take(8), "big", signed=True)
            need(FIRST <= moment <= LAST)
            count, following = reading.number(8), reading.number(8)
            statements, issues = self.many(self.reader.registered), self.many(self.reader.issued)
            nodes = self.nodes()
            withdrawn = self.withdrawn(len(statements)) if versioned else []
            need(is_tree(nodes, following) and reading.at == len(reading.data) and count <= LAST_EVENT)
        except (Undecided, ValueError, IndexError, RecursionError, OverflowError) as fault:
            raise Bad() from fault
        return moment, count, following, statements, issues, nodes, withdrawn

    def withdrawn(self, most):
        """The numbers of withdrawn statements, which rise, and of which none is above that of the last statement."""
        numbers = []
        for _ in range(self.reading.number(4)):
            number = self.reading.number(4)
            need((numbers[-1] if numbers else 0) < number <= most)
            numbers.append(number)
        return numbers

    def nodes(self):
        nodes, last = {}, 0
        for _ in range(self.reading.number(4)):
            number, node = self.reading.number(8), self.node()
            need(number > last)
            nodes[number], last = node, number
        return nodes

    def node(self):
        reading = self.reading
        kind = reading.number(1)
        need(1 <= kind <= 2)
        node = Node(KINDS[kind - 1], reading.name(), reading.number(8), reading.short())
        need(node.name == "" or is_name(node.name))
        last = ""
        for _ in range(reading.number(1)):
            name, value = reading.short(), reading.short()
            need(ATTRIBUTE.fullmatch(name) and name > last and is_text(value))
            node.attributes[name], last = value, name
        node.contents = bytearray(reading.take(reading.number(4)))
        return node


def is_tree(nodes, following):
    """Whether these nodes are a tree within the limits; then each directory has its children."""
    root = nodes.get(1)
    if root is None or (root.kind, root.parent, root.name) != ("directory", 0, ""):
        return False
    sizes = [len(node.contents) for node in nodes.values()]
    if len(nodes) > MOST_NODES or max(sizes) > MOST_FILE or sum(sizes) > MOST_TOGETHER or max(nodes) >= following:
        return False
    for number, node in nodes.items():
        if len(node.attributes) > MOST_ATTRIBUTES or node.kind == "directory" and node.contents:
            return False
        if number != 1 and not hung(nodes, number, node):
            return False
    return all(is_below_root(nodes, number) for number in nodes)


def hung(nodes, number, node):
    """Gives the node to its directory: whether that is one, and has no such name yet."""
    directory = nodes.get(node.parent)
    if directory is None or directory.kind != "directory" or node.name == "" or node.name in directory.children:
        return False
    directory.children[node.name] = number
    return True


def is_below_root(nodes, number):
    for _ in range(len(nodes)):
        if number == 1:
            return True
        number = nodes[number].parent
    return False


def state_of(image, secrets, reader=None):
    """The cause for which the image is damage, or else none, and its state."""
    state = History(secrets, reader)
    try:
        state.moment, state.count, state.next, statements, issues, state.nodes, withdrawn = ImageReader(state.reader, image).whole()
    except Bad:
        return 2, None
    state.together = sum(len(node.contents) for node in state.nodes.values())
    if not all(state.accepts(one.statement, one.signature) for one in statements):
        return 3, None
    state.registrations, state.statements = statements, [one.statement for one in statements]
    state.grantings, state.withdrawn = issues, set(withdrawn)
    for one in issues:
        state.keep_issue(one.grant, one.numbers)
    if not all(state.gives(one) for one in issues):
        return 4, None
    state.said = {one.bytes: number for number, one in enumerate(state.statements, 1)}
    if len(state.said) < len(statements) or len(statements) > MOST_STATEMENTS:
        return 7, None
    return None, state
