"""Kamailio before the gateway: INVITEs with a location go in, and 302 with the right contact must come out."""
import os
import shutil
import socket
import subprocess
import tempfile
import time

from processes import PATIENCE, Failed, Program, free_port

MODULES = "/usr/lib/x86_64-linux-gnu/kamailio/modules/"
FALLBACK = "sip:fallback@psap.example"
CONFIGURATION = """#!KAMAILIO
debug=1
log_stderror=yes
children=2
auto_aliases=no
disable_tcp=yes
listen=udp:127.0.0.1:{port}
mpath="{modules}"
loadmodule "tls.so"
loadmodule "sl.so"
loadmodule "pv.so"
loadmodule "textops.so"
loadmodule "http_client.so"
loadmodule "lost.so"
modparam("http_client", "cacert", "{certificate}")
modparam("http_client", "verify_peer", 1)
modparam("http_client", "keep_connections", 1)
modparam("http_client", "httpcon", "lost=>{url}")
request_route {{
    if (!is_method("INVITE")) {{ exit; }}
    $var(uri) = ""; $var(name) = ""; $var(error) = "";
    $var(answer) = lost_query("lost", "$var(uri)", "$var(name)", "$var(error)");
    if ($var(answer) != 200) {{ $var(uri) = "{fallback}"; }}
    append_to_reply("Contact: <$var(uri)>\\r\\n");
    append_to_reply("X-Lost: $var(answer) $var(error) $var(name)\\r\\n");
    sl_send_reply("302", "Moved Temporarily");
}}
"""
PIDF = """<?xml version="1.0" encoding="UTF-8"?>
<presence xmlns="urn:ietf:params:xml:ns:pidf" xmlns:gp="urn:ietf:params:xml:ns:pidf:geopriv10"
    xmlns:gml="http://www.opengis.net/gml" xmlns:gs="http://www.opengis.net/pidflo/1.0"
    xmlns:ca="urn:ietf:params:xml:ns:pidf:geopriv10:civicAddr" entity="pres:caller@example.com">
<tuple id="a"><status><gp:geopriv><gp:location-info>{location}</gp:location-info>
<gp:usage-rules/></gp:geopriv></status></tuple></presence>"""
INVITE = """INVITE {service} SIP/2.0
Via: SIP/2.0/UDP 127.0.0.1:{port};branch=z9hG4bK{number};rport
Max-Forwards: 70
From: <sip:caller@example.com>;tag={number}
To: <{service}>
Call-ID: {number}@example.com
CSeq: 1 INVITE
Contact: <sip:caller@127.0.0.1:{port}>
Geolocation: <cid:here@example.com>
Geolocation-Routing: yes
Content-Type: multipart/mixed; boundary=part
Content-Length: {length}

{body}"""
BODY = """--part
Content-Type: application/sdp

v=0
--part
Content-Type: application/pidf+xml
Content-ID: <here@example.com>

{pidf}
--part--
"""


class Kamailio(Program):
    """Kamailio 5.6 of Debian with its module lost, which asks at a URL."""

    def __init__(self, url, certificate):
        self.folder, self.port = tempfile.mkdtemp(prefix="check-kamailio-"), free_port(socket.SOCK_DGRAM)
        words = {"port": self.port, "modules": MODULES, "url": url, "certificate": certificate, "fallback": FALLBACK}
        with open(f"{self.folder}/kamailio.cfg", "w", encoding="ascii") as file:
            file.write(CONFIGURATION.format(**words))
        command = ["/usr/sbin/kamailio", "-DD", "-E", "-f", f"{self.folder}/kamailio.cfg", "-Y", self.folder, "-w", self.folder]
        super().__init__(command, stdout=subprocess.DEVNULL)
        self.caller = socket.socket(socket.AF_INET, socket.SOCK_DGRAM)
        self.caller.bind(("127.0.0.1", 0))
        self.caller.settimeout(10)
        self.number = os.getpid() * 1000
        self.await_ready()

    def await_ready(self):
        """Waits until it answers anything."""
        end = time.monotonic() + PATIENCE
        self.caller.settimeout(0.5)
        while time.monotonic() < end and self.is_alive():
            try:
                self.call("urn:service:x", "<gml:Point/>")
                self.caller.settimeout(10)
                return
            except OSError:
                continue
        raise Failed(f"Kamailio did not begin: {self.texts()[-800:]}")

    def call(self, service, location):
        """The reply to an INVITE for a service, with a location."""
        self.number += 1
        body = BODY.format(pidf=PIDF.format(location=location)).replace("\n", "\r\n")
        words = {"service": service, "port": self.caller.getsockname()[1], "number": self.number, "length": len(body.encode())}
        invite = INVITE.format(body="\n", **words).replace("\n", "\r\n").rstrip("\r\n") + "\r\n\r\n" + body
        self.caller.sendto(invite.encode(), ("127.0.0.1", self.port))
        while True:
            reply = self.caller.recv(65_536).decode(errors="replace")
            if f"Call-ID: {self.number}@" in reply and not reply.startswith("SIP/2.0 1"):
                return reply

    def end(self, *given):
        """Ends it, and removes its folder."""
        status = super().end(*given)
        shutil.rmtree(self.folder, ignore_errors=True)
        return status


def header(reply, name):
    """A header of a reply; empty where it has none."""
    for line in reply.split("\r\n"):
        if line.lower().startswith(f"{name.lower()}:"):
            return line.partition(":")[2].strip()
    return ""
