"""Three tests of a client, here avrstk: run them by `pytest examples/python/test_client.py`.

AVRSTK names the client, AVRSTK_SERVE the script avrstk-serve; the defaults are those of the clone, or the installed
ones."""

import subprocess
from pathlib import Path

from avrstk_testing import Double, program

FIRMWARE = Path(__file__).resolve().parent.parent / "blink.hex"
FLASH, EEPROM = 32_768, 1_024
# a chip file of an ATmega328P: flash, EEPROM, low, high and extended fuse, lock
OLD = b"\x55" * FLASH + bytes(range(256)) * 4 + b"\x62\xd9\xff\xff"
KEEPS_EEPROM = OLD[:-3] + b"\xd1\xff\xff"


def flash(port: str) -> int:
    """Runs the client, and returns its status."""
    client = program("AVRSTK", "avrstk")
    return subprocess.run([client, "-p", "m328p", "-P", port, "-U", f"flash:w:{FIRMWARE}:i"], timeout=120).returncode


def test_a_lost_erase_is_survived():
    with Double("--lose", "CHIP_ERASE#1", chip=OLD) as double:
        assert flash(double.port) == 0
    assert [command.name for command in double.commands if "lost" in command.marks] == ["CHIP_ERASE"]
    assert double.chip is not None and double.chip[228:FLASH] == b"\xff" * (FLASH - 228)


def test_a_lost_reply_is_made_good_by_one_retry():
    with Double("--lose-reply", "CHIP_ERASE#1", chip=OLD) as double:
        assert flash(double.port) == 0
    assert [command.name for command in double.commands].count("CHIP_ERASE") == 2


def test_eesave_keeps_the_eeprom():
    with Double(chip=KEEPS_EEPROM) as double:
        assert flash(double.port) == 0
    assert double.chip is not None and double.chip[FLASH : FLASH + EEPROM] == KEEPS_EEPROM[FLASH : FLASH + EEPROM]
