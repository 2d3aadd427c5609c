#!/usr/bin/env python3
"""gme.py LOG RAM RUNS: another yardstick, libgme, over the registers that LOG writes before its first tick and the RAM of a file: so many
runs of 32,000 samples, each from the snapshot on, and the time of each in nanoseconds. It is another chip model, with a processor, here
idling, and an output stage of its own. Where there is no libgme this says so and ends well. GME names another library.
gme.py LOG RAM: writes the snapshot, an SPC file, to standard output."""
import ctypes
import os
import struct
import sys
import time

RATE = 32000
# The processor idles in RAM that neither the samples nor the echo of tools/speed/logs reach.
IDLE, BRANCH_TO_ITSELF = 0xC000, b"\x2F\xFE"


def registers(log):
    """The 128 registers, by the writes before the first tick."""
    found = bytearray(128)
    for at in range(0, len(log), 4):
        if log[at : at + 2] != b"RW":
            break
        found[log[at + 2]] = log[at + 3]
    return bytes(found)


def snapshot(log, ram):
    """An SPC file, version 0.30, without song tags: 256 bytes of header, RAM, registers, 64 unused bytes, the 64 bytes of RAM below the ROM."""
    if len(ram) != 65536:
        sys.exit("gme: RAM is not 65,536 bytes")
    head = b"SNES-SPC700 Sound File Data v0.30" + bytes([26, 26, 27, 30])
    processor = struct.pack("<HBBBBB", IDLE, 0, 0, 0, 0, 0xEF)
    ram = ram[:IDLE] + BRANCH_TO_ITSELF + ram[IDLE + 2 :]
    return (head + processor).ljust(256, b"\0") + ram + registers(log) + bytes(64) + ram[-64:]


def library():
    for name in [os.environ["GME"]] if "GME" in os.environ else ["libgme.so.0", "libgme.so", "libgme.dylib"]:
        try:
            gme = ctypes.CDLL(name)
        except OSError:
            continue
        emulator, error = ctypes.c_void_p, ctypes.c_char_p
        gme.gme_open_data.argtypes = [ctypes.c_char_p, ctypes.c_long, ctypes.POINTER(emulator), ctypes.c_int]
        gme.gme_ignore_silence.argtypes = [emulator, ctypes.c_int]
        gme.gme_start_track.argtypes = [emulator, ctypes.c_int]
        gme.gme_play.argtypes = [emulator, ctypes.c_int, ctypes.POINTER(ctypes.c_short)]
        gme.gme_delete.argtypes = [emulator]
        for call in gme.gme_open_data, gme.gme_start_track, gme.gme_play:
            call.restype = error
        gme.gme_ignore_silence.restype = gme.gme_delete.restype = None
        return gme
    return None


def told(error):
    if error:
        sys.exit("gme: " + error.decode())


def played(gme, file, runs):
    """The time of each run."""
    emulator = ctypes.c_void_p()
    told(gme.gme_open_data(file, len(file), ctypes.byref(emulator), RATE))
    # Else a start plays ahead to the first sound.
    gme.gme_ignore_silence(emulator, 1)
    samples = (ctypes.c_short * (2 * RATE))()
    took = []
    for _ in range(runs):
        told(gme.gme_start_track(emulator, 0))
        begun = time.perf_counter_ns()
        error = gme.gme_play(emulator, len(samples), samples)
        took.append(time.perf_counter_ns() - begun)
        told(error)
        # A chip that plays nothing is no yardstick: an empty echo buffer alone gives samples of a few units.
        if max(samples[RATE:]) < 1000:
            sys.exit("gme: it is silent")
    gme.gme_delete(emulator)
    return took


def main(words):
    if len(words) not in (2, 3):
        sys.exit("usage: gme.py LOG RAM [RUNS]")
    log, ram = (open(name, "rb").read() for name in words[:2])
    file = snapshot(log, ram)
    if len(words) == 2:
        sys.stdout.buffer.write(file)
        return
    gme = library()
    if gme is None:
        print("gme: not at hand; Debian's package libgme0 has it")
        return
    for took in played(gme, file, int(words[2])):
        print(took)


main(sys.argv[1:])
