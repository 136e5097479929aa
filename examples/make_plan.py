#!/usr/bin/env python3
"""examples/make_plan.py FOLDER [SECONDS]: writes a larger plan and its media files into a folder, to try rates and losses with.

The programme has two assets: video of 60 units a second, of 3,000 bytes each, in MPUs of half a second, and audio of 16 units a second, of
300 bytes each, in MPUs of the same half seconds. A buffer message and a table, which names this half second's MPUs and the next one's, go
out twice a second, and each MPU is presented a second after its first unit is sent. It is 120 seconds long, or as many as are given
(1 to 1,800). Run `mmt mux plan.json` in the folder."""
import json
import os
import sys

TICKS = 65536           # ticks a second: an MMTP timestamp counts 1/65536 second
NTP = 2 ** 32           # NTP units a second
START = 1000            # when the programme begins, in seconds


def video(half):
    units = [{"at": (30 * half + i) * TICKS // 60, "from": 3000 * (30 * half + i), "length": 3000, "movie_fragment": 1,
              "sample": i + 1, "offset": 0, "priority": 0, "dependency": 0} for i in range(30)]
    return mpu(half, [[0, 1000]] * 30, units)


def audio(half):
    units = [{"at": (8 * half + i) * TICKS // 16, "from": 300 * (8 * half + i), "length": 300, "movie_fragment": 1,
              "sample": i + 1, "offset": 0, "priority": 0, "dependency": 0} for i in range(8)]
    return mpu(half, [[0, 3000]] * 8, units)


def mpu(half, aus, units):
    time = (START + 1) * NTP + half * NTP // 2
    return {"number": half, "time": time, "decoding_offset": 0, "aus": aus, "units": units}


def main():
    folder = sys.argv[1]
    seconds = int(sys.argv[2]) if len(sys.argv) > 2 else 120
    if not 1 <= seconds <= 1800:
        sys.exit("the seconds are 1 to 1,800")
    halves = 2 * seconds
    signalling = []
    for half in range(halves):
        named = [b for b in (half, half + 1) if b < halves]
        signalling.append({"at": half * TICKS // 2, "kind": "parameters"})
        signalling.append({"at": half * TICKS // 2, "kind": "table", "names": [[a, b] for a in (0, 1) for b in named]})
    plan = {
        "flow": "ff0e0000000000000000000000000101:51300", "source": "20010db8000000000000000000000001:51300",
        "context": 1, "full_every": 16, "limit": 1400, "spacing": 100, "package": "example",
        "bound": 400000, "window": 131072, "delay": 6554, "start": START * TICKS, "signalling": signalling,
        "assets": [
            {"packet_id": 256, "id": "video", "type": "hev1", "timed": True, "timescale": 60000, "file": "video.bin",
             "mpus": [video(half) for half in range(halves)]},
            {"packet_id": 272, "id": "audio", "type": "mp4a", "timescale": 48000, "timed": True, "file": "audio.bin",
             "mpus": [audio(half) for half in range(halves)]}]}
    os.makedirs(folder, exist_ok=True)
    with open(os.path.join(folder, "plan.json"), "w") as out:
        json.dump(plan, out)
    for name, length, step in (("video.bin", 180000 * seconds, 31), ("audio.bin", 4800 * seconds, 37)):
        pattern = bytes((step * p + p // 256) % 256 for p in range(65536))
        with open(os.path.join(folder, name), "wb") as out:
            out.write((pattern * (length // len(pattern) + 1))[:length])


main()
