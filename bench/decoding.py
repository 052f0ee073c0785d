"""Runs the program and other decoders on the bytes of a stream, for the scripts beside it."""
import array
import os
import subprocess
import sys
from collections import namedtuple

Answer = namedtuple("Answer", "code lines wav")
PATIENCE = 30
HEAD = 68  # bytes of a WAV's head
CHECKED = ["-err_detect", "crccheck+bitstream+buffer+explode", "-drc_scale", "0"]  # of ffmpeg


def decode(program, folder, stream, patience=PATIENCE):
    """The exit code (or `late`, after half a minute), the report's lines and the WAV's bytes."""
    names = [os.path.join(folder, name) for name in ("decoded.ac3", "decoded.wav", "decoded.txt")]
    for name, data in zip(names, (stream, b"", b"")):
        with open(name, "wb") as file:
            file.write(data)
    try:
        run = subprocess.run([program, "decode", *names], check=False, stdout=subprocess.DEVNULL, stderr=subprocess.DEVNULL, timeout=patience)
        code = run.returncode
    except subprocess.TimeoutExpired:
        code = "late"
    with open(names[1], "rb") as sound, open(names[2], errors="replace") as report:
        return Answer(code, report.read().splitlines(), sound.read())


def ffmpeg(*words, given=b""):
    """What it writes, and what it complains of."""
    run = subprocess.run(["ffmpeg", "-hide_banner", "-loglevel", "warning", *words, "pipe:1"], input=given, capture_output=True)
    said = [line for line in run.stderr.decode(errors="replace").splitlines() if "Estimating duration from bitrate" not in line]
    return run.stdout, said or ([f"ffmpeg ended with {run.returncode}"] if run.returncode else [])


def by_ffmpeg(stream):
    """Its samples as floats, one of each channel after the other, and what it complains of, all checks on."""
    heard, said = ffmpeg(*CHECKED, "-c:a", "ac3", "-f", "ac3", "-i", "pipe:0", "-f", "f32le", given=stream)
    return array.array("f", heard), said


def samples_of(sound):
    """The samples behind the head, of 24 bits, as units of 2^-31 of full scale."""
    pcm = sound[HEAD:]
    wide = bytearray(len(pcm) // 3 * 4)
    for place in range(3):
        wide[place + 1 :: 4] = pcm[place::3]
    samples = array.array("i", bytes(wide))
    if sys.byteorder == "big":
        samples.byteswap()
    return samples
