"""Runs `wav` of the compiled program: its header and each of its samples, beside those that are worked out here from the
bits; every option with every other; what it refuses; pipes; and writes that fail."""

import io
import itertools
import random
import struct
import subprocess
import wave

import tally as shared
from codewords import HEADER, SYNC, TONE, transmission
from tally import BAD_RATE, CANNOT_WRITE, ENDS, PROGRAM, call, fault, sampled, with_most_bytes

RATES = (512, 1200, 2400)
SAMPLES = (2_400, 8_000, 22_050, 44_100, 48_000, 96_000, 192_000)
# A tone in the first codeword of a batch.
SENT = transmission([TONE])
ROUNDS = {
    "a tone": b"8,tone0,\n",
    "two pages": b"0,numeric,5550199\n11,alpha,\"Pump 4, hall B: pressure low\"\n",
    "mixed": b"".join(b"%d,%s\n" % (5 * k, row) for k, row in enumerate((b"tone1,", b"numeric,]-[ U*", b"alpha,\x01~\x7f") * 4)),
}
# What the program says of words that it refuses.
BAD_SAMPLES, BAD_PREAMBLE, TOO_LONG = map(fault, (
    "the samples a second must be from the rate to 192000", "the preamble must have 576 bits or more, a multiple of 8",
    "the sound is too long for a WAV file",
))  # fmt: skip


def run(words, folder, stdin=b"", **more):
    return shared.run(["wav", *words], folder, stdin, **more)


def samples_of(sent, rate, a_second, inverted=False, preamble=None, tail=None):
    """The samples of a transmission: sample i has the level of bit i * rate / a_second. The silence lasts a batch, or so many milliseconds."""
    if preamble is not None:
        sent = b"\xaa" * (preamble // 8) + sent[sent.index(SYNC) :]
    bits = [int(bit) for byte in sent for bit in f"{byte:08b}"]
    levels = [(8_000 if bit == inverted else -8_000) for bit in bits] + (544 if tail is None else -(-tail * rate // 1_000)) * [0]
    return [levels[index * rate // a_second] for index in range(-(-len(levels) * a_second // rate))]


def is_sound(out, samples, a_second):
    """Whether this is the WAV file of these samples, byte by byte and as Python's own reader has it."""
    data = struct.pack(f"<{len(samples)}h", *samples)
    with wave.open(io.BytesIO(out)) as file:
        read = (file.getnchannels(), file.getsampwidth(), file.getframerate(), file.getnframes(), file.readframes(len(samples) + 1))
    front = struct.pack("<4sI4s4sIHHIIHH4sI", b"RIFF", 36 + len(data), b"WAVE", b"fmt ", 16, 1, 1, a_second, 2 * a_second, 2, 16, b"data", len(data))
    return out == front + data and read == (1, 2, a_second, len(samples), data)


def planned(folder, records, end):
    (folder / "pages.csv").write_bytes(HEADER + records)
    shared.run(["plan", "pages.csv", "tx.bin", "cert.bin", *ENDS[end]], folder).check_returncode()
    return (folder / "tx.bin").read_bytes()


def try_by_hand(tally, folder):
    """A sample for each bit: the first 576 alternate, and those of 7CD215D8 follow."""
    (folder / "tx.bin").write_bytes(SENT)
    done = run(["tx.bin", "--rate", 2400, "--samples", 2400], folder)
    tally.check("a lone tone", (done.returncode, done.stderr, len(done.stdout)) == (0, b"", 44 + 2 * (576 + 544 + 544)), done)
    high, low = b"\x40\x1f", b"\xc0\xe0"
    sync = [high if bit == "0" else low for bit in "01111100110100100001010111011000"]
    tally.check("its preamble", done.stdout[44:1196] == 288 * (low + high))
    tally.check("its first word", done.stdout[1196:1260] == b"".join(sync), done.stdout[1196:1260].hex())
    tally.check("its silence", done.stdout[-1088:] == bytes(1088) and done.stdout[-1090:-1088] == low)
    for tail, bits in (0, 0), (1, 3), (5, 12), (1_000, 2_400):
        ended = run(["tx.bin", "--rate", 2400, "--samples", 2400, "--tail", tail], folder).stdout
        due = 2 * (576 + 544 + bits)
        holds = ended[40:44] == due.to_bytes(4, "little") and ended[44:] == done.stdout[44:-1088] + bytes(2 * bits)
        tally.check(f"a silence of {tail} ms", holds, len(ended))
    done = run(["tx.bin"], folder)
    tally.check("1200 bit/s and 48000 samples by default", done.stdout == run(["tx.bin", "--rate", 1200, "--samples", 48_000], folder).stdout)


def try_rounds(tally, folder):
    """Each round at each rate, with numbers of samples in use and with some that no rate divides."""
    chance = random.Random(20261126)
    for (name, records), end in sampled(itertools.product(ROUNDS.items(), ENDS)):
        sent = planned(folder, records, end)
        for rate in RATES:
            for a_second in {*SAMPLES, rate, rate + 1, 2 * rate - 1, 191_999, *(chance.randint(rate, 192_000) for _ in range(4))}:
                done = run(["tx.bin", "--rate", rate, "--samples", a_second], folder)
                holds = (done.returncode, done.stderr) == (0, b"") and is_sound(done.stdout, samples_of(sent, rate, a_second), a_second)
                tally.check(f"{name}, {end} end, {rate} bit/s, {a_second} samples", holds, (done.stderr, len(done.stdout)))


def try_options(tally, folder):
    """Each option with each other, of a file and of standard input, and of transmissions with longer preambles."""
    sent = {length: b"\xaa" * length + SENT[72:] for length in (72, 73, 200)}
    lists = sent, RATES, (22_050, 48_000), (False, True), (None, 576, 1_000, 4_096), (None, 7), (False, True), (False, True)
    for length, rate, a_second, inverted, preamble, tail, is_piped, is_verbose in sampled(itertools.product(*lists)):
        (folder / "tx.bin").write_bytes(sent[length])
        words = ["-" if is_piped else "tx.bin", "--rate", rate, "--samples", a_second]
        words += ["--invert"] * inverted + (["--preamble", preamble] if preamble else []) + ["--verbose"] * is_verbose
        words += [] if tail is None else ["--tail", tail]
        done = run(words, folder, sent[length] if is_piped else b"")
        samples = samples_of(sent[length], rate, a_second, inverted, preamble, tail)
        holds = (done.returncode, done.stderr) == (0, b"") and is_sound(done.stdout, samples, a_second)
        tally.check(f"{length} bytes AA, {words}", holds, (done.stderr, len(done.stdout)))


def try_numbers(tally, folder):
    """Numbers that are refused before the file is opened."""
    refused = [(BAD_RATE, ["--rate", rate]) for rate in (0, 1, 511, 513, 1_201, 4_294_967_295)]
    refused += [(BAD_SAMPLES, ["--samples", a_second]) for a_second in (0, 1, 1_199, 192_001, 4_294_967_295)]
    refused += [(BAD_SAMPLES, ["--rate", rate, "--samples", rate - 1]) for rate in RATES]
    refused += [(BAD_PREAMBLE, ["--preamble", bits]) for bits in (0, 8, 568, 575, 577, 4_294_967_295)]
    refused += [(BAD_RATE, ["--rate", 9, "--samples", 0, "--preamble", 0]), (BAD_SAMPLES, ["--samples", 0, "--preamble", 0])]
    for told, words in refused:
        tally.check_done(f"refused {words}", run(["none.bin", *words], folder), 1, b"", told)


def try_lengths(tally, folder):
    """The longest sound that a WAV file holds, of which the front is read, and longer ones."""
    (folder / "tx.bin").write_bytes(SENT)
    # 375 samples for each bit: 2,147,483,629 samples are the most
    longest = (2_147_483_629 // 375 - 2 * 544) // 8 * 8
    words = ["tx.bin", "--rate", 512, "--samples", 192_000, "--preamble"]
    with subprocess.Popen([str(PROGRAM), "wav", *map(str, words), str(longest)], cwd=folder, stdout=subprocess.PIPE, stderr=subprocess.PIPE) as process:
        front = process.stdout.read(44)
        process.stdout.close()
        told = process.stderr.read()
    count = 375 * (longest + 2 * 544)
    lengths = (int.from_bytes(front[4:8], "little"), int.from_bytes(front[40:44], "little"))
    tally.check("the longest sound", lengths == (36 + 2 * count, 2 * count) and 2**32 - 6_000 < 36 + 2 * count < 2**32, lengths)
    tally.check("its reader goes", (process.returncode, told) == (3, CANNOT_WRITE), (process.returncode, told))
    for bits in (longest + 8, 4_294_967_288):
        tally.check_done(f"{bits} bits of preamble", run([*words, bits], folder), 1, b"", TOO_LONG)
    # 2,147,483,629 - 1,120 bits are 894,784,378.75 milliseconds
    for tail in (894_784_379, 4_294_967_295):
        done = run(["tx.bin", "--rate", 2400, "--samples", 2400, "--tail", tail], folder)
        tally.check_done(f"a silence of {tail} ms", done, 1, b"", TOO_LONG)


def try_pipes(tally, folder):
    """The line of the manual: a plan is keyed as it is made."""
    (folder / "pages.csv").write_bytes(HEADER + ROUNDS["mixed"])
    line = f"'{PROGRAM}' plan pages.csv - cert.bin 2> told | '{PROGRAM}' wav - --rate 512 | cat"
    done = call("bash", "-o", "pipefail", "-c", line, cwd=folder)
    samples = samples_of(planned(folder, ROUNDS["mixed"], "open"), 512, 48_000)
    tally.check("plan into wav", done.returncode == 0 and is_sound(done.stdout, samples, 48_000), done.stderr)


def try_failing_writes(tally, folder):
    """What was written before a write failed is a front of the sound."""
    (folder / "tx.bin").write_bytes(SENT)
    whole = run(["tx.bin"], folder).stdout
    for size in (0, 1, 43, 44, 45, 8_192, 100_001, len(whole) - 1, len(whole)):
        with open(folder / "out.wav", "wb") as out:
            done = run(["tx.bin"], folder, stdout=out, **with_most_bytes(size))
        due = (0, None) if size == len(whole) else (3, None, CANNOT_WRITE)
        tally.check_done(f"a disk of {size} bytes", done, *due, also=(folder / "out.wav").read_bytes() == whole[:size])
