"""What the programs `listing` and `packets` cost a pair, each beside one that others' code is in and on the same stream. A run
is the whole program, from a file to a file.

`listing` is beside a plain listing in Rust over the crate, on the last stream of the oracle's set `long`: of ten pairs six are
text, two are padding and two are a command and its copy. `packets` is beside tools/zvbi/packets.c, on the packets and captions
of `streams.packets`; the lines of packets are the same."""
import os
import subprocess
import sys

from timing import measure, streams
from timing.build import BUILT, ROOT, output_of, proved

PAIRS = 1_000_000
RUNS = 9


def long_stream(oracle):
    folder = BUILT / "streams"
    folder.mkdir(parents=True, exist_ok=True)
    subprocess.run([oracle, "streams", "long", folder], check=True, stdout=subprocess.DEVNULL)
    return max(folder.glob("*.pairs"))


def packets_stream():
    path = BUILT / "packets.pairs"
    path.write_bytes(streams.packets(PAIRS))
    return path


def run(whose, program, stream):
    with open(BUILT / f"{whose}.text", "wb") as text:
        return measure.seconds(program, stream, text)


def costs(programs, stream, compared):
    """A pair's nanoseconds, ours and the other's, without what a run over no pairs takes."""
    runs = {
        (whose, pairs): lambda whose=whose, program=program, given=given: run(whose, program, given)
        for pairs, given in {0: os.devnull, PAIRS: stream}.items()
        for whose, program in programs.items()
    }
    least = measure.shortest(runs, RUNS)
    if len({compared((BUILT / f"{whose}.text").read_bytes()) for whose in programs}) > 1:
        sys.exit("bench: the two programs differ, and no time is given")
    return [(least[whose, PAIRS] - least[whose, 0]) / PAIRS * 1e9 for whose in programs]


def listing_costs(oracle, folder):
    return costs({"ours": proved("listing"), "crate": folder / "plain"}, long_stream(oracle), bytes)


def packet_lines(text):
    return b"\n".join(line for line in text.splitlines() if b" packet " in line)


def packets_costs():
    zvbi = f"{output_of([ROOT / 'tools/build-zvbi'])}/packets"
    return costs({"ours": proved("packets"), "zvbi": zvbi}, packets_stream(), packet_lines)
