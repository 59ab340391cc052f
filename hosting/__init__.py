"""The host: answers the lines of many studies by the proved library, and stores every answer before it is sent.

It uses the client's package, junction, which stands beside it in client/.
"""

import sys
from pathlib import Path

_CLIENT = str(Path(__file__).resolve().parent.parent / "client")
if _CLIENT not in sys.path:
    sys.path.insert(1, _CLIENT)
