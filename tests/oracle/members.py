#!/usr/bin/env python3
"""Joins and leaves by chance on the two-switch fabric, and what becomes of them, as it is read here a second time, plainly:

    tests/oracle/members.py COUNT

writes `partitions`, `script` and `stdout` into the current folder: COUNT MADs that three ports send, and now and then a packet to
each group from two of them. What is kept is a list of who is in which group; a group is there while some port is in it."""

import random
import sys

# h1 is a full member of the first partition and a limited one of the second, h2 a full one of both, h3 a limited one of the first.
PARTITIONS = "P1=1: 0x111=full, 0x121=full, 0x131;\nP2=2: 0x111, 0x121=full;\n"
MEMBERS = {(4, 1): True, (5, 1): True, (6, 1): False, (4, 2): False, (5, 2): True}  # by LID and base: is it a full one
NAMES = {4: "h1/1", 5: "h2/1", 6: "h3/1"}

# Bits of the ComponentMask of an MCMemberRecord, and the codes of a status.
MGID, PORT_GID, Q_KEY, T_CLASS, P_KEY, SL, FLOW_LABEL, JOIN_STATE = 0x1, 0x2, 0x4, 0x40, 0x80, 0x1000, 0x2000, 0x10000
NO_RESOURCES, REQUEST_INVALID, INVALID_GID, INSUFFICIENT_COMPONENTS = 0x0100, 0x0200, 0x0500, 0x0600
TO_JOIN = MGID | PORT_GID | P_KEY | JOIN_STATE
TO_MAKE = TO_JOIN | Q_KEY | T_CLASS | SL | FLOW_LABEL
TO_LEAVE = MGID | PORT_GID | JOIN_STATE

chance = random.Random(42)
members = []  # who is in which group, as dictionaries: mlid, base, mgid, q_key, lid, bits
came = {}


class Refused(Exception):
    pass


def refuse_if(is_so, status):
    if is_so:
        raise Refused(status)


def is_full(lid, base):
    return MEMBERS.get((lid, base), False)


def gid(lid):
    return bytes.fromhex("fe80000000000000") + (0xD1 + 16 * lid).to_bytes(8, "big")


class Asked:
    """A join or a leave; now and then by a key that nobody has, by bits that no join has, or with a mask that lacks something."""

    def __init__(self):
        self.lid = chance.choice([4, 4, 4, 5, 5, 5, 6, 6])
        self.is_leave = chance.randrange(6) == 0
        self.gid_of = chance.choice([self.lid] * 7 + [4])
        self.p_key = chance.choice([1, 0x8001, 0x8001, 2, 2, 0x8002, 0x8002, 3])
        self.base = self.p_key & 0x7FFF
        self.number = chance.randrange(40)
        self.q_key = chance.choice([1] * 7 + [2])
        self.bits = chance.randrange(10)
        self.mask = chance.choice([TO_MAKE] * 4 + [TO_JOIN] * 2 + [TO_LEAVE, TO_MAKE & ~JOIN_STATE])

    def asks(self, components):
        return self.mask & components == components

    def is_about(self, one):
        return one["number"] == self.number and (one["base"] == self.base or not self.asks(P_KEY))

    def mad(self):
        mad = bytearray(256)
        mad[0:4] = bytes([1, 3, 2, 0x15 if self.is_leave else 0x02])
        mad[15], mad[17] = 1, 0x38
        mad[52:56] = self.mask.to_bytes(4, "big")
        mad[56:58], mad[71] = b"\xff\x12", self.number
        mad[72:88] = gid(self.gid_of)
        mad[91] = self.q_key
        mad[96:98] = self.p_key.to_bytes(2, "big")
        mad[104] = self.bits
        return mad


def join(asked):
    """Gives what was done, and the group's MLID, its Q_Key and the port's bits."""
    refuse_if(not asked.asks(TO_JOIN), INSUFFICIENT_COMPONENTS)
    refuse_if(asked.gid_of != asked.lid, INVALID_GID)
    refuse_if((asked.lid, asked.base) not in MEMBERS, REQUEST_INVALID)
    refuse_if(not 1 <= asked.bits <= 7, REQUEST_INVALID)
    group = next((one for one in members if one["number"] == asked.number and one["base"] == asked.base), None)
    if group is None:
        refuse_if(not (is_full(asked.lid, asked.base) and asked.bits & 1), REQUEST_INVALID)
        refuse_if(not asked.asks(TO_MAKE), INSUFFICIENT_COMPONENTS)
        first = 0xC000 + 32 * asked.base
        taken = {one["mlid"] for one in members}
        free = [mlid for mlid in range(first, first + 32) if mlid not in taken]
        refuse_if(not free, NO_RESOURCES)
        group = {"mlid": free[0], "base": asked.base, "number": asked.number, "q_key": asked.q_key}
    refuse_if(asked.asks(Q_KEY) and asked.q_key != group["q_key"], REQUEST_INVALID)
    done = "joined" if "lid" in group else "made"
    mine = next((one for one in members if one["mlid"] == group["mlid"] and one["lid"] == asked.lid), None)
    if mine is None:
        mine = {**group, "lid": asked.lid, "bits": 0}
        members.append(mine)
    mine["bits"] |= asked.bits
    return done, mine


def leave(asked):
    refuse_if(not asked.asks(TO_LEAVE), INSUFFICIENT_COMPONENTS)
    refuse_if(asked.gid_of != asked.lid, INVALID_GID)
    refuse_if(asked.bits == 0, REQUEST_INVALID)
    refuse_if(asked.asks(P_KEY) and (asked.lid, asked.base) not in MEMBERS, REQUEST_INVALID)
    left = [one for one in members if asked.is_about(one) and one["lid"] == asked.lid]
    refuse_if(not any(one["bits"] & asked.bits for one in left), REQUEST_INVALID)
    groups = {one["mlid"] for one in members}
    for one in left:
        one["bits"] &= ~asked.bits
    kept = {one["mlid"] for one in members if one["bits"] & 1 and is_full(one["lid"], one["base"])}
    members[:] = [one for one in members if one["bits"] and one["mlid"] in kept]
    return "left" if groups == {one["mlid"] for one in members} else "ended", None


def answer(asked):
    """The MAD that answers it."""
    mad = bytearray(256)
    mad[0:4] = bytes([1, 3, 2, 0x95 if asked.is_leave else 0x81])
    mad[15], mad[17] = 1, 0x38
    mad[52:56] = asked.mask.to_bytes(4, "big")
    try:
        done, mine = leave(asked) if asked.is_leave else join(asked)
    except Refused as refused:
        done = refused.args[0]
        mad[4:6] = done.to_bytes(2, "big")
        mine = None
    else:
        mad[56:] = asked.mad()[56:]
        if mine:
            mad[88:92] = mine["q_key"].to_bytes(4, "big")
            mad[92:94] = mine["mlid"].to_bytes(2, "big")
            # 2048 bytes, 10 Gb/s, 1.07 seconds at most
            mad[94], mad[98], mad[99] = 0x84, 0x83, 0x92
            mad[96:98] = (0x8000 | mine["base"]).to_bytes(2, "big")
            mad[104] = 0x20 | mine["bits"]
    came[done] = came.get(done, 0) + 1
    return mad


def payload(mad):
    text = mad.hex()
    while text.endswith("00"):
        text = text[:-2]
    return "256:" + text


def packets(script, told):
    """h1 and h2 send a packet to each MLID; those receive it who joined as FullMember or NonMember, but for the sender."""
    for base, mlid in [(base, 0xC000 + 32 * base + k) for base in (1, 2) for k in range(32)]:
        for lid in (4, 5):
            key = base | (0x8000 if is_full(lid, base) else 0)
            script.write(f"send {NAMES[lid]} {mlid:#06x} {key:#06x} 7 0:\n")
            receivers = sorted(one["lid"] for one in members if one["mlid"] == mlid and one["bits"] & 3 and one["lid"] != lid)
            for one in receivers:
                if is_full(lid, base) or is_full(one, base):
                    told.write(f"{NAMES[one]} recv {lid:#06x} {mlid:#06x} {key:#06x} 0x000007 0:\n")


def main():
    count = int(sys.argv[1])
    with open("partitions", "w") as it:
        it.write(PARTITIONS)
    with open("script", "w") as script, open("stdout", "w") as told:
        for number in range(1, count + 1):
            asked = Asked()
            script.write(f"send {NAMES[asked.lid]} 1 0x7fff 1 {payload(asked.mad())}\n")
            told.write(f"{NAMES[asked.lid]} recv 0x0001 {asked.lid:#06x} 0xffff 0x000001 {payload(answer(asked))}\n")
            if number % 250 == 0:
                packets(script, told)
    # Each outcome came often.
    for outcome in ("made", "joined", "left", "ended", NO_RESOURCES, REQUEST_INVALID, INVALID_GID, INSUFFICIENT_COMPONENTS):
        if came.get(outcome, 0) < count // 500:
            sys.exit(f"members.py: {outcome} came {came.get(outcome, 0)} times")


main()
