#!/usr/bin/env python3
"""Prints the service file of a printer for Avahi: avahi-service.py [OPTION..] QUEUE

spool_ipp announces no printers. With this file, avahi-daemon(8) announces one by DNS-SD, so that other systems find it:

    avahi-service.py --server 192.0.2.1:631 hall > /etc/avahi/services/cegmandi-hall.service

    --server SERVER        the address and port of spool_ipp, or its socket, by default 127.0.0.1:631
    --port PORT            the port to announce, by default that of SERVER, or 631
    --tls                  announce ipps in place of ipp: a proxy offers TLS on the port

The file has what the printer answers to Get-Printer-Attributes: make it again after a change of the queue, the conversions or the file of
printers. A printer that takes image/urf is announced to AirPrint, too. It exits with 1 if there is no such printer, or no answer.
"""
import argparse
import os
import socket
import struct
import sys
from xml.sax.saxutils import escape

SECONDS = 10
OPERATION, END = 0x01, 0x03
INTEGER, BOOLEAN, KEYWORD, URI, CHARSET, LANGUAGE = 0x21, 0x22, 0x44, 0x45, 0x47, 0x48
GET_PRINTER_ATTRIBUTES = 0x000B
WANTED = [
    "color-supported", "document-format-supported", "printer-info", "printer-location", "printer-make-and-model", "printer-uuid", "sides-supported",
    "urf-supported",
]


class Fault(Exception):
    """There is no such printer, or no answer."""


def attribute(tag, *values, name):
    """The octets of an attribute (RFC 8010, 3.1.4)."""
    octets = b""
    for value in values:
        octets += struct.pack(">BH", tag, len(name)) + name.encode() + struct.pack(">H", len(value.encode())) + value.encode()
        name = ""
    return octets


def request(queue):
    head = struct.pack(">BBHi", 1, 1, GET_PRINTER_ATTRIBUTES, 1) + bytes([OPERATION])
    head += attribute(CHARSET, "utf-8", name="attributes-charset") + attribute(LANGUAGE, "en", name="attributes-natural-language")
    head += attribute(URI, f"ipp://localhost/printers/{queue}", name="printer-uri")
    return head + attribute(KEYWORD, *WANTED, name="requested-attributes") + bytes([END])


def connected(server):
    if server.startswith("/"):
        line = socket.socket(socket.AF_UNIX)
        line.settimeout(SECONDS)
        line.connect(server)
        return line
    host, _, port = server.rpartition(":")
    return socket.create_connection((host.strip("[]"), int(port)), timeout=SECONDS)


def answered(server, body):
    """The body of the answer to a message."""
    head = f"POST / HTTP/1.1\r\nHost: localhost\r\nContent-Type: application/ipp\r\nContent-Length: {len(body)}\r\nConnection: close\r\n\r\n"
    with connected(server) as line:
        line.sendall(head.encode() + body)
        got = b""
        while piece := line.recv(65_536):
            got += piece
    head, _, content = got.partition(b"\r\n\r\n")
    if not head.startswith(b"HTTP/1.1 200 "):
        raise Fault(f"{server} answers {head.splitlines()[0].decode(errors='replace') if head else 'nothing'}")
    return content


def values_in(body):
    """The values of each attribute of an answer."""
    found, at, name = {}, 8, ""
    while body[at] != END:
        tag, at = body[at], at + 1
        if tag < 0x10:
            continue
        (length,) = struct.unpack_from(">H", body, at)
        name = body[at + 2 : at + 2 + length].decode() or name
        at += 2 + length
        (length,) = struct.unpack_from(">H", body, at)
        data, at = body[at + 2 : at + 2 + length], at + 2 + length
        if tag == BOOLEAN:
            value = data == b"\1"
        elif tag == INTEGER:
            (value,) = struct.unpack(">i", data)
        else:
            value = data.decode(errors="replace")
        found.setdefault(name, []).append(value)
    return found


def facts(server, queue):
    """What the printer answers."""
    body = answered(server, request(queue))
    status = struct.unpack_from(">H", body, 2)[0]
    if status >= 0x0100:
        raise Fault(f"{server} has no printer {queue}" if status == 0x0406 else f"{server} answers the status {status:#06x}")
    return values_in(body)


def records(queue, found):
    """The TXT records of the printer (Bonjour Printing Specification 1.2.1)."""
    def first(name, other=""):
        return str(found.get(name, [other])[0])

    make = first("printer-make-and-model", "Unknown")
    formats = [it for it in found.get("document-format-supported", []) if it != "application/octet-stream"]
    said = {
        "txtvers": "1", "qtotal": "1", "rp": f"printers/{queue}", "ty": make, "product": f"({make})", "note": first("printer-location"),
        "pdl": ",".join(formats), "UUID": first("printer-uuid").removeprefix("urn:uuid:"),
        "Color": "T" if True in found.get("color-supported", []) else "F",
        "Duplex": "T" if any(it.startswith("two-sided") for it in found.get("sides-supported", [])) else "F",
    }
    if "urf-supported" in found:
        said["URF"] = ",".join(found["urf-supported"])
    # A record has at most 255 bytes.
    return [f"{name}={value}".encode()[:255].decode(errors="ignore") for name, value in said.items() if value]


def service(queue, found, port, tls):
    """The text of the service file."""
    kind = "_ipps._tcp" if tls else "_ipp._tcp"
    subtypes = ["_print"] + (["_universal"] if "urf-supported" in found else [])
    name = (found.get("printer-info") or [""])[0] or queue
    lines = ['<?xml version="1.0" standalone="no"?>', '<!DOCTYPE service-group SYSTEM "avahi-service.dtd">', "<service-group>"]
    lines += [f'  <name replace-wildcards="yes">{escape(name)} @ %h</name>', "  <service>", f"    <type>{kind}</type>"]
    lines += [f"    <subtype>{it}._sub.{kind}</subtype>" for it in subtypes]
    lines += [f"    <port>{port}</port>"]
    lines += [f"    <txt-record>{escape(it)}</txt-record>" for it in records(queue, found)]
    return "\n".join([*lines, "  </service>", "</service-group>", ""])


def main():
    parser = argparse.ArgumentParser(usage=__doc__)
    parser.add_argument("--server", default="127.0.0.1:631")
    parser.add_argument("--port", type=int)
    parser.add_argument("--tls", action="store_true")
    parser.add_argument("queue")
    given = parser.parse_args()
    port = given.port or (631 if given.server.startswith("/") else int(given.server.rpartition(":")[2]))
    try:
        text = service(given.queue, facts(given.server, given.queue), port, given.tls)
    except (Fault, OSError, struct.error, IndexError) as fault:
        print(f"{os.path.basename(sys.argv[0])}: {fault}", file=sys.stderr)
        return 1
    sys.stdout.write(text)
    return 0


if __name__ == "__main__":
    sys.exit(main())
