"""What osmtest asks of an SA that ours answers otherwise, put right on the way, so that each flow runs to its end. The file
OSMTEST_REPAIRS gets the name of a repair each time. Our SA
    class-port-info       has no ClassPortInfo: 0x000c
    join-pkey             wants the P_Key in a join, of an existing group too: 0x0600
    zero-mgid             makes no MGID up: 0x0200
    made-up-mgid          takes an MGID with 0xA01B that it did not make up
    mgid-flags            takes an MGID with reserved flags
    join-state-f          refuses bit 3 of JoinState, which is of release 1.3: 0x0200
    leave-of-more         takes a leave of bits of which the port does not hold all
    what-a-leave-leaves   answers a leave with its JoinState, not with the bits that are left
    proxy                 refuses a join or leave for another port: 0x0500
    service-pkey          wants the P_Key of a service: 0x0600
    service-key           keeps no ServiceKey, so no query by key finds anything
    service-delete        wants ServiceID, ServiceGID and P_Key in a Delete: 0x0600
    service-gid-prefix    wants a right GID; osmtest sends its prefix in host byte order: 0x0500
"""
import os

SERVICE, MEMBER, CLASS_PORT_INFO = 0x31, 0x38, 0x01
SET, DELETE = 0x02, 0x15
INVALID = 0x0200
MGID, PKEY = 1, 1 << 7  # of the ComponentMask
ID, GID, SERVICE_PKEY, SERVICE_KEY = 1, 1 << 1, 1 << 2, 1 << 5  # the same, of a ServiceRecord
DEFAULT_KEY = 0xFFFF
FULL = 1  # of JoinState

groups = {}  # the record of each group, by MGID
held = {}  # the bits of JoinState that this port holds, by MGID
services = {}  # ID, GID and P_Key of each service, by name
made = set()  # the MGIDs made up here


def tell(name):
    with open(os.environ["OSMTEST_REPAIRS"], "a") as file:
        file.write(name + "\n")


def number(mad, at, length):
    return int.from_bytes(mad[at : at + length], "big")


def put(mad, at, value, length):
    return mad[:at] + value.to_bytes(length, "big") + mad[at + length :]


def answered(mad, status, data=bytes(200)):
    """The response to a request, with this status."""
    method = 0x81 if mad[3] == SET else mad[3] | 0x80
    return (put(mad[:3] + bytes([method]) + mad[4:56] + data[:200].ljust(200, b"\0"), 4, status, 2),)


def outward(port, mad):
    """What is sent of a request; or in a tuple what answers it, if it is not sent."""
    attribute, method = number(mad, 16, 2), mad[3]
    if mad[1] != 3:
        return mad
    if attribute == CLASS_PORT_INFO:
        tell("class-port-info")
        return answered(mad, 0, bytes([1, 2, 0, 0, 0, 0, 0, 18]))
    if attribute == SERVICE:
        return about_service(port, mad)
    if attribute == MEMBER and method in (SET, DELETE) and mad[72:88] != own_gid(port):
        return for_another(mad)
    if attribute == MEMBER and method == SET:
        return join(mad)
    if attribute == MEMBER and method == DELETE:
        return leave(mad)
    return mad


def about_service(port, mad):
    """A service needs a GID and a P_Key; one that goes is named by its ID too."""
    mask, method, name = number(mad, 48, 8), mad[3], mad[104:168]
    if mask & GID and mad[64:72] != own_gid(port)[:8]:
        tell("service-gid-prefix")
        mad = mad[:64] + own_gid(port)[:8] + mad[72:]
    if method == SET and not mask & SERVICE_PKEY:
        tell("service-pkey")
        mask |= SERVICE_PKEY
        mad = put(mad, 80, DEFAULT_KEY, 2)
    if method == SET:
        for other in [other for other, record in services.items() if record[:8] == mad[56:64]]:
            del services[other]  # it is replaced
        services[name] = mad[56:82]
    elif mask & SERVICE_KEY and method != DELETE:
        tell("service-key")
        mask &= ~SERVICE_KEY
    elif method == DELETE and name in services and mask & (ID | GID | SERVICE_PKEY) != ID | GID | SERVICE_PKEY:
        tell("service-delete")
        mask |= ID | GID | SERVICE_PKEY
        mad = mad[:56] + services.pop(name) + mad[82:]
    return put(mad, 48, mask, 8)


def own_gid(port):
    return (0xFE80 << 112 | port.guid).to_bytes(16, "big")


def for_another(mad):
    """A join or leave for another port, which is answered without the SA. A group that is made so is here alone."""
    tell("proxy")
    mgid = mad[56:72]
    if not any(mgid):
        mgid = made_up()
        groups[mgid] = mgid + mad[72:92] + b"\xc0\xff" + mad[94:108]
    record = bytearray(groups[mgid])
    record[16:32] = mad[72:88]
    record[48] = record[48] & 0xF0 | (mad[104] & 15 if mad[3] == SET else 0)
    return answered(mad, 0, bytes(record))


def made_up():
    """A new MGID, as the SA makes one up."""
    made.add(bytes.fromhex("ff12a01bffff") + bytes(8) + (len(made) + 1).to_bytes(2, "big"))
    return max(made)


def join(mad):
    mask, mgid = number(mad, 48, 8), mad[56:72]
    if mask & MGID and not any(mgid) or not mask & MGID:
        tell("zero-mgid")
        mgid = made_up()
        mask |= MGID
    elif mgid not in groups and (mgid[2:4] == b"\xa0\x1b" or mgid[1] & 0xE0):
        tell("made-up-mgid" if mgid[2:4] == b"\xa0\x1b" else "mgid-flags")
        return answered(mad, INVALID)
    if mad[104] & 8:
        tell("join-state-f")
        mad = put(mad, 104, mad[104] & 0xF7, 1)
    if not mask & PKEY and mgid in groups:
        tell("join-pkey")
        mask |= PKEY
        mad = put(mad, 96, number(groups[mgid], 40, 2), 2)
    return put(mad[:56] + mgid + mad[72:], 48, mask, 8)


def leave(mad):
    mgid = mad[56:72]
    if mad[104] & 8:
        tell("join-state-f")
        mad = put(mad, 104, mad[104] & 0xF7, 1)
    bits = mad[104] & 15
    if bits & ~held.get(mgid, bits):
        tell("leave-of-more")
        return answered(mad, INVALID)
    return mad


def inward(port, mad):
    """What a program gets of a response. Groups are remembered."""
    if mad[1] == 3 and number(mad, 16, 2) == MEMBER and number(mad, 4, 2) == 0:
        mgid = mad[56:72]
        if mad[3] == 0x81:
            groups[mgid], held[mgid] = mad[56:108], mad[104] & 15
        elif mad[3] == 0x95:
            left = held.pop(mgid, 0) & ~mad[104] & 15
            if left & FULL:
                held[mgid] = left
            else:
                left = 0  # it was the only full member, and the group ends
            if left != mad[104] & 15:
                tell("what-a-leave-leaves")
                mad = put(mad, 104, mad[104] & 0xF0 | left, 1)
        elif mad[3] == 0x92 and mad[26] == 7:
            for at in range(56, 36 + number(mad, 32, 4), 56):
                groups[mad[at : at + 16]] = mad[at : at + 52]
    return mad
