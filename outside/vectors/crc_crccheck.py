# Reads lines `crc HEX` and writes `HEX CRC`, the CRC by crccheck.
import sys

from crccheck.crc import CrcA

for line in sys.stdin:
    text = line.split()[1]
    run = b"" if text == "-" else bytes.fromhex(text)
    # Low byte first, as it is sent.
    print(text, CrcA.calc(run).to_bytes(2, "little").hex().upper())
