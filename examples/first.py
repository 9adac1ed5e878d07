#!/usr/bin/env python3
"""A first program over a module: its LMKs, a key, a refusal, and messages that are sent together.

    python3 examples/first.py [PORT]

Start `hsm_tool serve examples/laboratory.toml` first; PORT is a host port, 1501 by default.
"""
import os
import sys

# Beside examples/, where sothvelm is not installed.
sys.path.append(os.path.join(os.path.dirname(os.path.dirname(os.path.abspath(__file__))), "tools"))

from sothvelm import Client, Refused  # noqa: E402

with Client("127.0.0.1", int((sys.argv[1:] or ["1501"])[0]), header="0001") as host:
    print("the LMKs' check:", host.check_of_lmks().check_of_lmks)
    drawn = host.generate_key(mode=0, key_type="001", scheme_under_lmks="U")
    print("a ZPK was drawn, whose check value has", len(drawn.check_value), "digits")
    try:
        host.generate_key(mode=0, key_type="000", scheme_under_lmks="U")
    except Refused as refused:
        print("a ZMK:", refused.code, refused.words)
    with host.pipeline() as several:
        pins = [several.draw_pin(account_field="123456789012", length=4) for _ in range(3)]
    print("PINs that were drawn:", len({each.reply.pin_under_lmks for each in pins}))
