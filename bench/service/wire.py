"""What the scripts of this folder share that look at what is on the wire."""
import socket
import struct
import threading
import time

import common


class Wire:
    """What is on the wire: of UDP datagrams the first line, and from where they go to where."""

    def __init__(self):
        self.way = socket.socket(socket.AF_PACKET, socket.SOCK_DGRAM, socket.htons(0x0800))
        self.way.bind(("lo", 0))
        common.with_room(self.way)
        self.way.settimeout(0.2)
        self.seen, self.ended = [], False
        self.thread = threading.Thread(target=self.listen, daemon=True)
        self.thread.start()

    def listen(self):
        while not self.ended:
            try:
                packet, (_, _, kind, _, _) = self.way.recvfrom(65536)
            except socket.timeout:
                continue
            # (each datagram is seen as it goes, and as it comes)
            if kind == socket.PACKET_OUTGOING or packet[9] != socket.IPPROTO_UDP:
                continue
            size = (packet[0] & 15) * 4
            source, target = struct.unpack("!HH", packet[size:size + 4])
            ends = ((socket.inet_ntoa(packet[12:16]), source), (socket.inet_ntoa(packet[16:20]), target))
            self.seen.append((packet[size + 8:].split(b"\r\n")[0].decode("latin-1"), *ends))

    def end(self):
        time.sleep(0.5)
        self.ended = True
        self.thread.join()
        self.way.close()
        return self.seen
