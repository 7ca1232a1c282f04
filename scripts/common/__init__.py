"""What scripts of several folders share. Behind this import they also find the modules of examples/
and the Python client.

A script that is run by itself puts scripts/ on Python's path first, and imports each other one by
its folder: `from check import pages`.
"""
import pathlib
import sys

TOP = pathlib.Path(__file__).resolve().parents[2]
KEYS = TOP / "examples" / "keys"
# In a checkout others may read it, and a daemon warns of such a file.
if KEYS.stat().st_mode & 0o777 != 0o600:
    KEYS.chmod(0o600)
sys.path[:0] = [str(TOP / "examples"), str(TOP / "clients" / "python")]
