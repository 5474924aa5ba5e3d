#!/usr/bin/env python3
"""The test signal of examples/ladspa/run.

`wav.py make FOLDER` writes it twice: FOLDER/in.wav, 16 bits, 48 kHz, mono, and FOLDER/in.raw, the same in 24 bits, low byte first.
`wav.py same A B` compares two WAV files: status 0 for the same samples, 1 for others, 2 where they cannot be compared.
"""
import math
import sys
import wave

RATE = 48000
FULL = 2**23 - 1


def noise():
    """Pseudo-random, -1 to 1; the generator is that of the other examples."""
    state = 1
    while True:
        state = (state * 1664525 + 1013904223) % 2**32
        yield state / 2**31 - 1


def samples():
    """24-bit samples: a sweep from 20 Hz to 20 kHz with noise, silence, full scale, then every upper 16 bits once."""
    hiss = noise()
    growth = math.log(1000)
    for i in range(RATE):
        phase = 2 * math.pi * 20 * (math.exp(growth * i / RATE) - 1) / growth
        yield round(FULL * (0.8 * math.sin(phase) + 0.2 * next(hiss)))
    for _ in range(RATE // 10):
        yield 0
    for i in range(RATE // 10):
        yield FULL if i % 2 else -FULL - 1
    for i in range(-2**15, 2**15):
        yield (i << 8) + int(128 + 127 * next(hiss))


def make(folder):
    data = list(samples())
    with wave.open(folder + "/in.wav", "wb") as file:
        file.setparams((1, 2, RATE, len(data), "NONE", None))
        file.writeframes(b"".join((s >> 8).to_bytes(2, "little", signed=True) for s in data))
    with open(folder + "/in.raw", "wb") as file:
        file.write(b"".join(s.to_bytes(3, "little", signed=True) for s in data))


def stop(message):
    print("wav.py: " + message, file=sys.stderr)
    sys.exit(2)


def read(path):
    try:
        with wave.open(path, "rb") as file:
            return file.getparams()[:4], file.readframes(file.getnframes())
    except (OSError, EOFError, wave.Error) as error:
        stop(f"{path} cannot be read: {error}")


def same(a, b):
    (shape_a, data_a), (shape_b, data_b) = read(a), read(b)
    if shape_a != shape_b:
        stop(f"channels, bytes a sample, rate and length are {shape_a} and {shape_b}")
    width = shape_a[1]
    apart = [i for i in range(0, len(data_a), width) if data_a[i:i + width] != data_b[i:i + width]]
    if apart:
        sys.exit(f"wav.py: {len(apart)} of {shape_a[3]} samples differ, the first is number {apart[0] // width}")


if __name__ == "__main__":
    if len(sys.argv) == 3 and sys.argv[1] == "make":
        make(sys.argv[2])
    elif len(sys.argv) == 4 and sys.argv[1] == "same":
        same(sys.argv[2], sys.argv[3])
    else:
        stop("say `make FOLDER` or `same A B`")
