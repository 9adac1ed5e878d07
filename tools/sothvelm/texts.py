"""The texts of fields that have few of them."""
# Written by `python3 -m sothvelm.generate` from examples/commands.txt.
from typing import Literal

KeyType = Literal["000", "001", "002", "402", "003", "008", "009", "00A", "00B"]
MacType = Literal["003", "008"]
PairCode = Literal["00", "01", "02", "03", "08", "09", "0A", "0B", "FF"]
Flag = Literal["0", "1", "2"]
Scheme = Literal["Z", "U", "T"]
WrapScheme = Literal["Z", "U", "T", "X", "Y"]
Format = Literal["01", "03", "05", "47"]
