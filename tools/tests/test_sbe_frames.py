"""Tests of tools/sbe-frames: each form of a capture, each rule for the end of a message, streams put together, and what is
refused. The captures are written here byte by byte; where text2pcap and tshark are there, also by them."""
import shutil
import struct
import subprocess
import sys
import tempfile
import unittest
from pathlib import Path

TOOL = Path(__file__).resolve().parent.parent / "sbe-frames"
A, B = bytes([10, 0, 0, 1]), bytes([10, 0, 0, 2])
A6, B6 = b"\xfd" + bytes(14) + b"\x01", b"\xfd" + bytes(14) + b"\x02"
ETHERNET = bytes(12)


def frame(message, encoding=b"\xeb\x50"):
    return (len(message) + 6).to_bytes(4, "big") + encoding + message


def frames(*messages):
    return b"".join(frame(it) for it in messages)


def sized(*messages):
    """Messages after their length of 2 bytes, little-endian, which counts itself."""
    return b"".join((len(it) + 2).to_bytes(2, "little") + it for it in messages)


def ip(protocol, payload, source=A, target=B, flags=0):
    return struct.pack(">BBHHHBBH", 0x45, 0, 20 + len(payload), 0, flags, 64, protocol, 0) + source + target + payload


def udp(data, port=9000, **rest):
    return ip(17, struct.pack(">HHHH", 5000, port, 8 + len(data), 0) + data, **rest)


def tcp(number, data=b"", flags=0x10, ports=(5000, 9000)):
    return ip(6, struct.pack(">HHIIBBHHH", *ports, number & 0xFFFFFFFF, 0, 0x50, flags, 1000, 0, 0) + data)


def ethernet(packet, kind=b"\x08\x00"):
    return ETHERNET + kind + packet


def pcap(*packets, link=1, order="<", mark=0xA1B2C3D4, lengths=None):
    data = struct.pack(order + "IHHiIII", mark, 2, 4, 0, 0, 65535, link)
    for i, packet in enumerate(packets):
        length = lengths[i] if lengths else len(packet)
        data += struct.pack(order + "IIII", 0, 0, len(packet), length) + packet
    return data


def block(kind, body, order="<"):
    body += bytes(-len(body) % 4)
    size = struct.pack(order + "I", 12 + len(body))
    return struct.pack(order + "I", kind) + size + body + size


def section(order="<"):
    return block(0x0A0D0D0A, struct.pack(order + "IHHq", 0x1A2B3C4D, 1, 0, -1), order)


def interface(link=1, most=0, order="<"):
    return block(1, struct.pack(order + "HHI", link, 0, most), order)


def enhanced(packet, of=0, order="<"):
    return block(6, struct.pack(order + "IIIII", of, 0, 0, len(packet), len(packet)) + packet, order)


class Case(unittest.TestCase):
    def run_on(self, data, *options):
        done = subprocess.run([sys.executable, TOOL, *options], input=data, capture_output=True, check=False)
        return done.stdout, done.returncode, done.stderr.decode().replace("sbe-frames: -: ", "").rstrip("\n")

    def same(self, data, expected, *options):
        self.assertEqual(self.run_on(data, *options), (expected, 0, ""))

    def refused(self, data, before, told, *options):
        self.assertEqual(self.run_on(data, *options), (before, 1, told))


SIZED = ("--length", "2", "--counts", "all")


class Datagrams(Case):
    def test_messages_after_a_packet_header(self):
        packets = [bytes(12) + sized(b"one", b"two"), bytes(12), bytes(12) + sized(b"three")]
        expected = frames(b"one", b"two", b"three")
        for order, mark in (("<", 0xA1B2C3D4), (">", 0xA1B2C3D4), ("<", 0xA1B23C4D), (">", 0xA1B23C4D)):
            data = pcap(*(ethernet(udp(it)) for it in packets), order=order, mark=mark)
            self.same(data, expected, *SIZED, "--skip", "12")

    def test_each_link(self):
        packet = udp(b"message")
        links = {
            1: ethernet(packet),
            0: b"\x02\0\0\0" + packet,
            101: packet,
            228: packet,
            113: bytes(14) + b"\x08\x00" + packet,
            276: b"\x08\x00" + bytes(18) + packet,
        }
        for link, data in links.items():
            self.same(pcap(data, link=link), frames(b"message"), "--whole")
        tagged = ETHERNET + b"\x81\x00\x00\x01" + b"\x88\xa8\x00\x02" + b"\x08\x00" + packet
        self.same(pcap(tagged), frames(b"message"), "--whole")
        self.refused(pcap(packet, link=147), b"", "packet 1: a link of type 147, which isn't read here", "--whole")

    def test_padding_of_ethernet_is_no_message(self):
        self.same(pcap(ethernet(udp(b"m")) + bytes(17)), frames(b"m"), "--whole")

    def test_version_6_and_its_extension_headers(self):
        datagram = struct.pack(">HHHH", 5000, 9000, 8 + 7, 0) + b"message"
        for protocol, more in ((17, b""), (0, b"\x3c\x00" + bytes(6) + b"\x11\x01" + bytes(14))):
            packet = struct.pack(">IHBB", 6 << 28, len(more + datagram), protocol, 9) + A6 + B6 + more + datagram
            self.same(pcap(ethernet(packet, b"\x86\xdd")), frames(b"message"), "--whole", "--to", "[fd00::2]:9000")
        packet = struct.pack(">IHBB", 6 << 28, 8 + len(datagram), 44, 9) + A6 + B6 + b"\x11\0\0\1\0\0\0\0" + datagram
        told = "packet 1: a fragment of an IP datagram; fragments aren't put together"
        self.refused(pcap(ethernet(packet, b"\x86\xdd")), b"", told, "--whole")

    def test_what_is_passed_over_is_counted(self):
        packets = [ethernet(b"\0" * 28, b"\x08\x06"), ethernet(udp(b"m")), ethernet(ip(1, b"ping")), ethernet(udp(b"n", port=9001))]
        found = self.run_on(pcap(*packets), "--whole", "--count", "--to", "9000")
        self.assertEqual(found, (frames(b"m"), 0, "4 packets, 3 of them skipped, 1 frames"))

    def test_ends(self):
        packets = pcap(*(ethernet(udp(name, port=port)) for name, port in ((b"a", 1), (b"b", 2), (b"c", 3))))
        self.same(packets, frames(b"a", b"c"), "--whole", "--to", "1", "--to", "10.0.0.2:3")
        self.same(packets, frames(b"a", b"b", b"c"), "--whole", "--from", "10.0.0.1", "--to", "10.0.0.2")
        self.same(packets, b"", "--whole", "--from", "10.0.0.3")
        self.same(packets, b"", "--whole", "--tcp")

    def test_refusals(self):
        def of(*payloads):
            return pcap(*(ethernet(udp(it)) for it in payloads))

        good = bytes(2) + sized(b"one")
        skip = (*SIZED, "--skip", "2")
        self.refused(of(good, b"x"), frames(b"one"), "packet 2: byte 2 of its 1: it has 1 bytes, and --skip is 2", *skip)
        self.refused(of(good + b"\x07"), frames(b"one"), "packet 1: byte 7 of its 8: it ends before the length of a message", *skip)
        told = "packet 1: byte 7 of its 12: a message of 4 bytes, where 3 are left"
        self.refused(of(good + b"\x06\0abc"), frames(b"one"), told, *skip)
        told = "packet 1: byte 7 of its 9: a length of 1, which counts 2 bytes before the message"
        self.refused(of(good + b"\x01\0"), frames(b"one"), told, *skip)
        told = "packet 1: byte 2 of its 7: a message of 3 bytes, whose frame passes --max-frame 8"
        self.refused(of(good), b"", told, *skip, "--max-frame", "8")

    def test_damaged_packets(self):
        whole = ethernet(udp(b"message"))
        told = "packet 1: not all of its 49 bytes were captured"
        self.refused(pcap(whole[:-3], lengths=[len(whole)]), b"", told, "--whole")
        self.refused(pcap(whole[:20]), b"", "packet 1: it ends inside the header of IP", "--whole")
        self.refused(pcap(whole[:36]), b"", "packet 1: it ends inside the header of UDP", "--whole")
        told = "packet 1: a fragment of an IP datagram; fragments aren't put together"
        self.refused(pcap(ethernet(udp(b"m", flags=0x2000))), b"", told, "--whole")
        bad = bytearray(whole)
        bad[38:40] = b"\0\x20"
        self.refused(pcap(bytes(bad)), b"", "packet 1: a length of UDP of 32, where IP leaves 15 bytes", "--whole")
        self.refused(pcap(whole)[:-1], b"", "byte 88 of the file: it ends inside packet 1", "--whole")
        self.refused(pcap(whole)[:30], b"", "packet 1: the file ends inside its header", "--whole")


class Captures(Case):
    def test_the_blocks_of_pcapng(self):
        first, second = ethernet(udp(b"one")), udp(b"two")
        for order in "<>":
            data = section(order) + interface(order=order) + interface(101, order=order) + block(5, b"what", order)
            data += enhanced(first, order=order) + enhanced(second, 1, order)
            data += block(3, struct.pack(order + "I", len(first)) + first, order)
            data += block(2, struct.pack(order + "HHIIII", 1, 0, 0, 0, len(second), len(second)) + second, order)
            self.same(data, frames(b"one", b"two", b"one", b"two"), "--whole")

    def test_each_section_has_its_order_and_interfaces(self):
        data = section() + interface() + enhanced(ethernet(udp(b"one")))
        data += section(">") + interface(101, order=">") + enhanced(udp(b"two"), order=">")
        self.same(data, frames(b"one", b"two"), "--whole")

    def test_damaged_blocks(self):
        good = section() + interface()
        self.refused(good + enhanced(b"", 3), b"", "packet 1: its interface 3 isn't in the capture", "--whole")
        self.refused(good + struct.pack("<II", 6, 13), b"", "byte 48 of the file: a block that says that it has 13 bytes", "--whole")
        bad = bytearray(good + enhanced(ethernet(udp(b"m"))))
        bad[-4] += 4
        self.refused(bytes(bad), b"", "byte 48 of the file: a block whose two lengths differ", "--whole")
        self.refused(good + enhanced(b"")[:-5], b"", "byte 75 of the file: it ends inside a block of the capture", "--whole")


class Streams(Case):
    def of(self, *segments):
        return pcap(*(ethernet(it) for it in segments))

    def test_segments_in_any_order(self):
        data = sized(b"one", b"two", b"three", b"four")
        for start in (100, 0xFFFFFFF8):
            def part(begin, end, more=0x10):
                return tcp(start + 1 + begin, data[begin:end], more)

            begin, end = tcp(start, flags=2), tcp(start + 1 + len(data), flags=0x11)
            expected = frames(b"one", b"two", b"three", b"four")
            for middle in (
                [part(0, 4), part(4, 11), part(11, len(data))],
                [part(11, len(data)), part(4, 11), part(0, 4)],
                [part(0, 7), part(0, 7), part(3, 12), part(9, 10), part(12, len(data))],
                [part(9, len(data)), part(5, 12), part(9, 11), part(0, 6)],
                [part(i, i + 1) for i in range(len(data))],
            ):
                self.same(self.of(begin, *middle, end), expected, *SIZED)

    def test_both_directions_and_two_connections(self):
        there, back = (5000, 9000), (9000, 5000)
        data = self.of(
            tcp(10, flags=2, ports=there),
            tcp(70, flags=0x12, ports=back),
            tcp(11, sized(b"one"), ports=there),
            tcp(71, sized(b"two"), ports=back),
            tcp(16, flags=0x11, ports=there),
            tcp(76, flags=0x14, ports=back),
            tcp(16, ports=there),
            tcp(500, flags=2, ports=there),
            tcp(501, sized(b"three"), ports=there),
        )
        self.same(data, frames(b"one", b"two", b"three"), *SIZED)
        self.same(data, frames(b"one", b"three"), *SIZED, "--to", "9000")

    def test_a_stream_with_a_header_of_its_own(self):
        self.same(self.of(tcp(0, flags=2), tcp(1, b"lo"), tcp(3, b"gon" + sized(b"m"))), frames(b"m"), *SIZED, "--skip", "5")

    def test_a_connection_whose_beginning_is_not_captured(self):
        data = sized(b"one", b"two", b"three")
        for start in (100, 0xFFFFFFFA):
            first, second = tcp(start, data[:7]), tcp(start + 7, data[7:])
            keep_alive, again = tcp(start - 1), tcp(start + 3, data[3:7])
            for segments in ([first, second], [keep_alive, first, second, again], [first, again, tcp(start - 1), second]):
                self.same(self.of(*segments), frames(b"one", b"two", b"three"), *SIZED, "--midstream", "--skip", "5")
        early = "packet 2: 10.0.0.1:5000 to 10.0.0.2:9000: its bytes come before those of the first segment that was captured"
        self.refused(self.of(tcp(105, data[5:]), tcp(100, data[:5])), frames(b"two", b"three"), early, *SIZED, "--midstream")
        whole = self.of(tcp(0, flags=2), tcp(1, b"lo"), tcp(3, b"gon" + data))
        self.same(whole, frames(b"one", b"two", b"three"), *SIZED, "--midstream", "--skip", "5")

    def test_refusals(self):
        way = "10.0.0.1:5000 to 10.0.0.2:9000"
        begin, one = tcp(0, flags=2), tcp(1, sized(b"one"))
        told = "packet 1: %s begins before the capture does; --midstream reads it from here on" % way
        self.refused(self.of(one), b"", told, *SIZED)
        told = "%s: 2 bytes from byte 5 on are missing" % way
        self.refused(self.of(begin, one, tcp(8, b"late")), frames(b"one"), told, *SIZED)
        told = "%s: byte 5: it ends inside a message, of which 3 bytes are there" % way
        self.refused(self.of(begin, one, tcp(6, b"\x05\0a"), tcp(9, flags=0x11)), frames(b"one"), told, *SIZED)
        told = "%s: byte 5: a length of 0, which counts 2 bytes before the message" % way
        self.refused(self.of(begin, one, tcp(6, b"\0\0")), frames(b"one"), told, *SIZED)
        told = "packet 1: --whole is for datagrams, and this is a segment of TCP, %s" % way
        self.refused(self.of(begin), b"", told, "--whole")


class Rules(Case):
    def test_lengths(self):
        def same(data, *options):
            self.same(data, frames(b"one", b"four"), "--plain", *options)

        same(b"\x03one\x04four", "--length", "1")
        same(b"\x03\0one\x04\0four", "--length", "2")
        same(b"\0\x03one\0\x04four", "--length", "2", "--order", "big")
        same(b"\x03\0\0\0one\x04\0\0\0four", "--length", "4")
        same(b"\0\0\0\x07one\0\0\0\x08four", "--length", "4", "--order", "big", "--counts", "all")
        same(b"tt\x03one" + b"tt\x04four", "--length", "1", "--at", "2")
        same(b"t\x05ttone" + b"t\x06ttfour", "--length", "1", "--at", "1", "--before", "4", "--counts", "rest")
        same(b"t\x07ttone" + b"t\x08ttfour", "--length", "1", "--at", "1", "--before", "4", "--counts", "all")
        same(b"t\x03ttone" + b"t\x04ttfour", "--length", "1", "--at", "1", "--before", "4")
        same(b"head\x03one\x04four", "--length", "1", "--skip", "4")
        same(frames(b"one", b"four"), "--length", "4", "--order", "big", "--before", "6", "--counts", "all")

    def test_fixed(self):
        self.same(b"abcdef", frames(b"abc", b"def"), "--fixed", "3")
        told = "byte 3: it ends inside a message, of which 2 bytes are there"
        self.refused(b"abcde", frames(b"abc"), told, "--fixed", "3")
        self.refused(b"abc", b"", "byte 3: it ends 2 bytes before the end of --skip", "--fixed", "3", "--skip", "5")

    def test_a_long_stream_in_many_reads(self):
        messages = [bytes([i % 251]) * (i % 900) for i in range(3000)]
        data = b"".join(len(it).to_bytes(2, "little") + it for it in messages)
        self.same(data, frames(*messages), "--length", "2")

    def test_the_encoding_type(self):
        self.same(b"abc", frame(b"abc", b"\x5b\xe0"), "--fixed", "3", "--encoding", "5be0")

    def test_words_that_are_refused(self):
        for words in ((), ("--fixed", "3", "--whole"), ("--fixed", "0"), ("--length", "3"), ("--length", "2", "--before", "1"),
                      ("--whole", "--encoding", "xyz1"), ("--whole", "--to", "host"), ("--whole", "--to", "65536")):
            self.assertEqual(self.run_on(b"", *words)[1], 2, words)
        told = "--whole is for the datagrams of a capture, and this isn't a pcap or pcapng file"
        self.refused(b"abc", b"", told, "--whole")


@unittest.skipUnless(shutil.which("text2pcap") and shutil.which("tshark"), "needs text2pcap and tshark")
class Tools(Case):
    """Captures that text2pcap makes, and that tshark writes again in each form."""

    def captures(self, payloads, *way):
        text = "".join("0000 %s\n" % payload.hex(" ") for payload in payloads)
        with tempfile.TemporaryDirectory() as folder:
            made = Path(folder) / "made.pcapng"
            (Path(folder) / "dump.txt").write_text(text)
            subprocess.run(["text2pcap", "-q", *way, Path(folder) / "dump.txt", made], check=True, capture_output=True)
            yield made.read_bytes()
            for form in ("pcap", "nsecpcap", "pcapng"):
                again = Path(folder) / form
                subprocess.run(["tshark", "-q", "-r", made, "-F", form, "-w", again], check=True, capture_output=True)
                yield again.read_bytes()

    def test_datagrams(self):
        payloads = [bytes(12) + sized(b"one", b"two"), bytes(12) + sized(b"three")]
        for way in (("-u", "5000,9000"), ("-u", "5000,9000", "-4", "10.0.0.1,10.0.0.2"), ("-u", "5000,9000", "-6", "fd00::1,fd00::2")):
            for data in self.captures(payloads, *way):
                self.same(data, frames(b"one", b"two", b"three"), *SIZED, "--skip", "12", "--to", "9000")

    def test_segments_without_a_beginning(self):
        data = sized(b"one", b"two", b"three")
        for way in (("-T", "5000,9000"), ("-T", "5000,9000", "-4", "10.0.0.1,10.0.0.2")):
            for capture in self.captures([data[:7], data[7:]], *way):
                self.same(capture, frames(b"one", b"two", b"three"), *SIZED, "--to", "9000", "--midstream")


if __name__ == "__main__":
    unittest.main()
