"""MADs, and messages of several (RMPP, chapter 13.6 of volume 1), as Linux sends and joins them."""

SA = 0x03
MAD_BYTES = 256
RESPONSE = 0x80  # the bit of a method that is a response
PAYLOAD = 220  # of a segment: what PayloadLength counts, which begins behind the RMPP header, at byte 36
ACTIVE, FIRST, LAST = 1, 2, 4  # the flags of RMPP
IS_DATA, IS_ACK = 1, 2  # of its types
WINDOW = 64  # segments


def number(mad, at, length):
    """The unsigned number of so many bytes there."""
    return int.from_bytes(mad[at : at + length], "big")


def is_active(mad):
    """Whether a MAD is a segment, or a word about segments."""
    return (mad[1] == SA or 0x30 <= mad[1] <= 0x4F) and bool(mad[26] & ACTIVE)


def header_bytes(mad):
    """Where the data of a MAD of this class begin: behind the header of SA, or that of a vendor."""
    return 56 if mad[1] == SA else 40


class Incoming:
    """The segments of a response, in their order. What is `asked` is the request."""

    def __init__(self, asked):
        self.asked = asked
        self.segments = []

    def expected(self):
        return len(self.segments) + 1

    def take(self, mad):
        """Takes the next segment; the ACK for it, if one is due: at the end of a window and at the last segment."""
        self.segments.append(mad)
        count = len(self.segments)
        window = (count + WINDOW - 1) // WINDOW * WINDOW
        if count not in (1, window) and not mad[26] & LAST:
            return None
        if count == window and not mad[26] & LAST:
            window += WINDOW
        numbers = count.to_bytes(4, "big") + window.to_bytes(4, "big")
        ack = mad[:3] + bytes([mad[3] ^ RESPONSE]) + mad[4:25] + bytes([IS_ACK, ACTIVE, mad[27]]) + numbers
        return (ack + mad[36 : header_bytes(mad)]).ljust(MAD_BYTES, b"\0")

    def whole(self):
        """The message as a program reads it: the first segment, and the data of the others."""
        last = number(self.segments[-1], 32, 4)
        missing = PAYLOAD - last if last <= PAYLOAD else 0
        message = self.segments[0] + b"".join(mad[header_bytes(mad) :] for mad in self.segments[1:])
        return message[: len(message) - missing]


class Outgoing:
    """A message that a program sends in segments: the first at once, others as the receiver allows."""

    def __init__(self, message):
        header = header_bytes(message)
        room = MAD_BYTES - header
        data = message[header:]
        parts = [data[at : at + room] for at in range(0, len(data), room)]
        missing = room * len(parts) - len(data)
        self.segments, self.sent = [], 0
        for count, part in enumerate(parts, 1):
            is_last = count == len(parts)
            flags = ACTIVE | FIRST * (count == 1) | LAST * is_last
            length = PAYLOAD - missing if is_last else PAYLOAD * len(parts) - missing if count == 1 else 0
            words = bytes([1, IS_DATA, flags, 0]) + count.to_bytes(4, "big") + length.to_bytes(4, "big")
            self.segments.append((message[:24] + words + message[36:header] + part).ljust(MAD_BYTES, b"\0"))

    def allowed(self, window):
        """The segments that are to be sent now."""
        begun, self.sent = self.sent, max(self.sent, min(window, len(self.segments)))
        return self.segments[begun : self.sent]
