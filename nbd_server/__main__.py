"""./nbd WORD.. runs `python3 nbd_server WORD..`."""
import os
import sys

sys.path[0] = os.path.dirname(os.path.dirname(os.path.abspath(__file__)))
from nbd_server import server

server.main(sys.argv[1:])
