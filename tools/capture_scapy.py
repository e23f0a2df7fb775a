"""What scapy reads of a capture on standard input: of each frame a line of JSON, scapy's values by tools/capture's names.

tools/capture --check runs it, with an interpreter that has scapy; no other file imports scapy. Nothing is decoded here.
Octets behind an object's elements, or behind LOS octets of a segment, are a further object to scapy, so the number of
objects is written too. Octets that scapy makes no message of are a line without values.
"""
import json
import sys

from scapy.contrib.scada.iec104 import IEC104_S_Message, IEC104_U_Message
from scapy.layers.inet import TCP
from scapy.utils import PcapReader

# By scapy's field, the name in tools/capture: of the control field and the header, then of the object.
NAMES = {
    "tx_seq_num": "tx", "rx_seq_num": "rx", "type_id": "typeid", "sq": "sq", "num_io": "numix", "test": "test",
    "ack": "nega", "cot": "causetx", "origin_address": "oa", "common_asdu_address": "addr",
    "information_object_address": "ioa", "file_name": "NOF", "section_name": "NOS", "file_length": "LOF reversed",
    "fr": "FRQ", "fr_ack": "flag", "sr": "SRQ", "section_load_state": "flag", "select_call": "SCQ", "errors": "error",
    "ack_file_or_sec": "AFQ", "lsq": "LSQ", "checksum": "CHS", "segment_length": "LOS", "data": "octets",
}


def values_of(message, port):
    objects = message.fields.get("io", [])
    values = {"srcport": port, "objects": len(objects)}
    for part in [message, *objects[:1]]:
        values.update((NAMES[name], value) for name, value in part.fields.items() if name in NAMES)
    return values


for packet in PcapReader(sys.stdin.buffer):
    message = packet[TCP].payload
    while message:
        if not isinstance(message, (IEC104_S_Message, IEC104_U_Message)):
            print(json.dumps(values_of(message, packet[TCP].sport), default=bytes.hex))
        message = message.payload
