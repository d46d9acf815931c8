#!/usr/bin/env python3
"""A program that goes by libibumad, at a port of a live bench:
    client.py send HEX..      sends SA MADs, and prints each response: its bytes in hexadecimal digits, or `none`
    client.py bad WHAT        does what no right program does: no-mad, long, short, own-class, no-agent, ack, die
It waits for a response no longer than ten seconds, and than one after what is bad.
"""
import ctypes
import os
import sys

HEADER, MAD = 64, 256
umad = ctypes.CDLL("libibumad.so.3", use_errno=True)


def opened(kind=3, version=2, rmpp=1):
    """A device, and an agent of it."""
    umad.umad_init()
    device = umad.umad_open_port(None, 0)
    if device < 0:
        sys.exit("client: the device does not open")
    return device, umad.umad_register(device, kind, version, rmpp, None)


def sent(device, agent, mad, length=MAD, wait=10000):
    """Sends a MAD to the SA."""
    packet = ctypes.create_string_buffer(bytes(HEADER) + mad, HEADER + max(length, MAD))
    umad.umad_set_addr(packet, 1, 1, 0, 0x80010000)
    return umad.umad_send(device, agent, packet, length, wait, 0)


def received(device, wait=11000):
    """The next MAD, or none if its request has no response."""
    packet = ctypes.create_string_buffer(HEADER + MAD)
    length = ctypes.c_int(MAD)
    agent = umad.umad_recv(device, packet, ctypes.byref(length), wait)
    return packet.raw[HEADER : HEADER + length.value] if agent >= 0 and umad.umad_status(packet) == 0 else None


def bad(what):
    node_table = bytes.fromhex("01030212" + 8 * "00" + "00000007" + "0011").ljust(MAD, b"\0")
    if what == "own-class":
        device, agent = opened(0x55, 1, 0)
        sent(device, agent, bytes.fromhex("01550155").ljust(MAD, b"\xff"), wait=1000)
    else:
        device, agent = opened()
        ack = node_table[:24] + bytes.fromhex("010201000000000300000040") + node_table[36:]
        mads = {"no-mad": bytes(range(256)), "long": bytes(300), "short": node_table, "no-agent": node_table, "ack": ack, "die": node_table}
        lengths = {"long": 300, "short": 20}
        result = sent(device, agent + 5 if what == "no-agent" else agent, mads[what], lengths.get(what, MAD), 1000)
        if what == "die":
            os._exit(9)
        if result < 0:
            print("not sent")
            return
    got = received(device, 2000)
    print("none" if got is None else got.hex())


def main():
    if sys.argv[1] == "bad":
        bad(sys.argv[2])
        return
    device, agent = opened()
    for digits in sys.argv[2:]:
        got = received(device) if sent(device, agent, bytes.fromhex(digits).ljust(MAD, b"\0")) >= 0 else None
        print("none" if got is None else got.hex(), flush=True)


main()
