"""Builds what is timed, ours and the crate's, for this machine's kind of processor, and not for its model.

The whole programs are ours as rt builds them, proved. The calls by themselves are made by programs that are not proved,
calls.rattle and sends.rattle: an older toolchain compiled them so, and its compiler's module was kept. Today's rt builds no
program without a proof, and tests each step of one that it only tries, so that a time would say nothing. They wait for a
proof of their own."""
import pathlib
import subprocess
import sys

HERE = pathlib.Path(__file__).resolve().parent
ROOT = HERE.parent.parent
BUILT = ROOT / "built/timing"
LAYERS = ("code", "event", "receiver", "queue", "sender")

def output_of(words):
    return subprocess.run(words, stdout=subprocess.PIPE, check=True, text=True).stdout.strip()


def write(path, text):
    path.parent.mkdir(parents=True, exist_ok=True)
    path.write_text(text)


def proved(name):
    """A program of this repository, proved and built."""
    subprocess.run([ROOT / "run", name], stdin=subprocess.DEVNULL, stdout=subprocess.DEVNULL, check=True)
    return ROOT / "crates" / name / "out" / name


def sourced(name, parts):
    """The source of a program, of its parts in their order."""
    source = BUILT / f"{name}.rattle"
    write(source, "\n".join(part.read_text() for part in parts))
    return source


def build_ours(name, main, libraries):
    """Our program of a source that is not proved, over libraries of this repository and of the kit."""
    sys.exit(f"bench: {name} is not timed: today's rt builds no program without a proof ({main.relative_to(ROOT)})")


MANIFEST = """[package]
name = "timing"
version = "0.0.0"
edition = "2021"

[[bin]]
name = "calls"
path = '{here}/calls.rs'

[[bin]]
name = "waiting"
path = '{here}/waiting.rs'

[[bin]]
name = "plain"
path = '{here}/plain.rs'

[dependencies]
cea608-types = {{ path = '../../oracle/cea608-types' }}

[workspace]
"""


def build_crate():
    """The oracle, and the folder of the crate's programs, optimised and without debug assertions."""
    oracle = output_of([ROOT / "tools/build-oracle"])
    write(BUILT / "crate/Cargo.toml", MANIFEST.format(here=HERE))
    registry = output_of(["sh", "-c", "dpkg -L librust-log-dev | sed -n 's|/log-[^/]*/Cargo\\.toml$||p'"])
    debian = ["source.crates-io.replace-with='debian'", f"source.debian.directory='{registry}'"]
    configured = [word for setting in debian for word in ("--config", setting)]
    build = ["build", "--release", "--offline", "--quiet", "--target-dir", "cargo"]
    subprocess.run(["cargo", *configured, *build], cwd=BUILT / "crate", check=True)
    return oracle, BUILT / "crate/cargo/release"
