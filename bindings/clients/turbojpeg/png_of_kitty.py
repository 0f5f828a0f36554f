"""Takes the PNG files out of what timg writes for the terminal kitty: png_of_kitty.py < OUTPUT >
PICTURE."""

import base64
import re
import sys

parts = re.findall(rb"\x1b_G([^;]*);([^\x1b]*)\x1b", sys.stdin.buffer.read())
sys.stdout.buffer.write(base64.b64decode(b"".join(data for _, data in parts)))
