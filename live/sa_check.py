"""What volume 1 of the InfiniBand specification asks of a response of subnet administration (SA): the MAD header, RMPP
(chapter 13.6), AttributeOffset, and the selectors of a record (chapter 15.2). Nothing here is taken from the program that is
tested. Each check returns what is wrong, as a list of texts.
"""
from rmpp import FIRST, IS_DATA, LAST, PAYLOAD, RESPONSE, is_active, number

GET, SET, GET_TABLE = 0x01, 0x02, 0x12
HEADER, DATA = 56, 200  # of an SA MAD: where its data begin, and how many bytes they are

# Of each attribute: its name, the bytes of a record, and the places of its MTU, Rate and PacketLifeTime, if it has them.
RECORDS = {
    0x0011: ("NodeRecord", 108, ()),
    0x0031: ("ServiceRecord", 176, ()),
    0x0035: ("PathRecord", 64, (54, 55, 56)),
    0x0038: ("MCMemberRecord", 52, (38, 42, 43)),
}
EXACTLY = 2  # the selector of a response
CODES = (("MTU", 1, 5), ("Rate", 2, 10), ("PacketLifeTime", 0, 63))


def name_of(attribute):
    return RECORDS[attribute][0] if attribute in RECORDS else f"attribute 0x{attribute:04x}"


def record_errors(attribute, record, keys):
    """What is wrong in a record that is shown to a port with these P_Keys."""
    _, _, places = RECORDS[attribute]
    wrong = []
    for place, (what, least, most) in zip(places, CODES):
        selector, code = record[place] >> 6, record[place] & 63
        if selector != EXACTLY:
            wrong.append(f"the selector of {what} is {selector}, not 2 (exactly)")
        if not least <= code <= most:
            wrong.append(f"the code of {what} is {code}")
    lids, key = (), None
    if attribute == 0x0011:
        lids = (number(record, 0, 2),)
        if record[4] != 1 or record[6] not in (1, 2, 3):
            wrong.append("NodeInfo has no base version 1, or no type of node")
    elif attribute == 0x0031:
        key = number(record, 24, 2)
    elif attribute == 0x0035:
        lids, key = (number(record, 40, 2), number(record, 42, 2)), number(record, 50, 2)
    else:
        key = number(record, 40, 2)
        if record[0] != 0xFF or not 0xC000 <= number(record, 36, 2) <= 0xFFFE:
            wrong.append("MGID or MLID is not multicast")
    if any(not 1 <= lid <= 0xBFFF for lid in lids):
        wrong.append("a LID is not unicast")
    if key is not None and key & 0x7FFF not in (held & 0x7FFF for held in keys):
        wrong.append(f"P_Key 0x{key:04x} is of no partition of the port that asks")
    return wrong


def header_errors(asked, mad):
    """What is wrong in the header of a response, or of a segment of one."""
    attribute = number(mad, 16, 2)
    wrong = []
    if mad[0] != 1 or mad[2] != 2:
        wrong.append(f"its versions are {mad[0]} and {mad[2]}, not 1 and 2")
    wanted = RESPONSE | (asked[3] if asked[3] != SET else GET)
    if mad[3] != wanted:
        wrong.append(f"its method is 0x{mad[3]:02x}, not 0x{wanted:02x}")
    if mad[16:18] != asked[16:18] or mad[20:24] != asked[20:24]:
        wrong.append("its attribute or modifier is not the request's")
    wanted = (RECORDS[attribute][1] + 7) // 8 if attribute in RECORDS else 0
    units = number(mad, 44, 2)
    if units != wanted and (units or is_active(mad)):
        wrong.append(f"AttributeOffset is {units}: a {name_of(attribute)} takes {wanted} units of 8 bytes")
    return wrong


def response_errors(asked, mad, keys):
    """What is wrong in a response without RMPP."""
    wrong = header_errors(asked, mad)
    attribute, status = number(mad, 16, 2), number(mad, 4, 2)
    if asked[3] == GET_TABLE and status == 0:
        wrong.append("a table comes without RMPP")
    if status == 0 and asked[3] in (GET, SET) and attribute in RECORDS:
        wrong += record_errors(attribute, mad[HEADER : HEADER + RECORDS[attribute][1]], keys)
    return wrong


def segment_errors(asked, segments, keys):
    """What is wrong in the last of these segments; and in the whole table, if it says that it is the last one."""
    mad = segments[-1]
    wrong = header_errors(asked, mad)
    if mad[24] != 1:
        wrong.append(f"its RMPP version is {mad[24]}, not 1")
    if mad[25] != IS_DATA or mad[27]:
        wrong.append(f"its RMPP type is {mad[25]}, with status {mad[27]}")
    if bool(mad[26] & FIRST) != (len(segments) == 1):
        wrong.append(f"the flag First is wrong in segment {len(segments)}")
    if number(mad, 28, 4) != len(segments):
        wrong.append(f"segment {number(mad, 28, 4)} comes in place of {len(segments)}")
    return wrong + (table_errors(segments, keys) if mad[26] & LAST else [])


def table_errors(segments, keys):
    """What is wrong in a table as a whole."""
    first, last = number(segments[0], 32, 4), number(segments[-1], 32, 4)
    before = PAYLOAD * (len(segments) - 1)
    if not 20 <= last <= PAYLOAD:
        return [f"PayloadLength of the last segment is {last}"]
    wrong = []
    if first != before + last and not (first == 0 and before):
        wrong.append(f"PayloadLength of the first segment is {first}: the segments have {before + last}")
    length = DATA * (len(segments) - 1) + last - 20
    data = b"".join(mad[HEADER:] for mad in segments)[:length]
    attribute = number(segments[0], 16, 2)
    if attribute not in RECORDS:
        return wrong
    name, size, _ = RECORDS[attribute]
    step = (size + 7) // 8 * 8
    if length % step:
        wrong.append(f"{length} bytes are no whole number of {name}s, each {step} bytes after the other")
    for at in range(0, length - size + 1, step):
        wrong += record_errors(attribute, data[at : at + size], keys)
    return wrong
