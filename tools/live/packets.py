"""Captures that are written as text, for stored cases.

A line is a packet: `SECONDS SOURCE PORT DESTINATION PORT FLAGS SEQUENCE PAYLOAD`. FLAGS are some of
S, F, R and A; PAYLOAD is the text of a bytes literal of Python without its quotes, and may be
missing. `*COUNT` at the end of a payload says that only so many of its bytes were captured. Lines
that begin with # are skipped.
"""
import ast
import ipaddress
import re
import struct

FLAGS = {"F": 1, "S": 2, "R": 4, "A": 16}
# The packets begin with the header of IP.
RAW_IP = 101
TCP, NO_CHECKSUM = 6, 0


def tcp_packet(source, source_port, destination, destination_port, flags, sequence, payload):
    """A packet with its IP header. Its checksums are left out."""
    bits = sum(FLAGS[flag] for flag in flags)
    tcp = struct.pack(">HHIIBBHHH", source_port, destination_port, sequence, 0, 5 << 4, bits, 65535,
                      NO_CHECKSUM, 0)
    source, destination = ipaddress.ip_address(source), ipaddress.ip_address(destination)
    length = len(tcp) + len(payload)
    if source.version == 4:
        ip = struct.pack(">BBHHHBBH", 0x45, 0, 20 + length, 0, 0, 64, TCP, NO_CHECKSUM)
    else:
        ip = struct.pack(">IHBB", 6 << 28, length, TCP, 64)
    return ip + source.packed + destination.packed + tcp + payload


def write_capture(text, path):
    """Writes the capture that a text says."""
    with open(path, "wb") as out:
        out.write(struct.pack("<IHHiIII", 0xA1B2C3D4, 2, 4, 0, 0, 65535, RAW_IP))
        for line in text.splitlines():
            if not line or line.startswith("#"):
                continue
            seconds, source, source_port, destination, destination_port, flags, sequence, *rest = (
                line.split(" ", 7)
            )
            said = re.fullmatch(r"(.*?)(?:\*(\d+))?", rest[0] if rest else "")
            payload = ast.literal_eval(f'b"{said[1]}"')
            packet = tcp_packet(source, int(source_port), destination, int(destination_port),
                                flags, int(sequence), payload)
            captured = packet[: len(packet) - len(payload) + int(said[2] or len(payload))]
            whole, _, fraction = seconds.partition(".")
            out.write(struct.pack("<IIII", int(whole), int(fraction.ljust(6, "0")), len(captured),
                                  len(packet)) + captured)
