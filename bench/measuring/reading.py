"""Instructions a byte of what reads files: sites, the texts of runs and records."""
import os
import pathlib
import random
import subprocess

from measuring.inputs import draws, large_site, record
from measuring.programs import function_of, instructions, page_faults, processor_seconds, text_of

TOP = pathlib.Path(__file__).resolve().parent.parent.parent
TRIALS = pathlib.Path(os.environ.get("TRIALS", TOP / "crates" / "trials" / "out" / "trials"))
TEXT_BYTES = 1_048_576


def measure_bytes(programs, folder, seed):
    panel = programs[0]
    profile = folder / "profile"
    text, names = large_site(8, outputs=True)
    panel.give_site(text)
    whole = instructions([panel.path, "check", panel.site])
    less, _ = large_site(4, outputs=True)
    panel.give_site(less)
    tell("read_site, by what check takes for 8 panels more than for 4", whole - instructions([panel.path, "check", panel.site]), len(text) - len(less))
    panel.give_site(text)
    lines = mixed(names)
    record(folder / "record", seed, lines, 2_000)
    instructions(panel.run(), folder / "record", profile)
    tell("LineReader", function_of(profile, "LineReader"), (folder / "record").stat().st_size)
    measure_texts(panel, folder, seed, text, names)


def tell(name, count, length):
    if count is None:
        print(f"{name}: no function of that name in the profile")
    else:
        print(f"{name}: {count / length:,.1f} instructions a byte, {length:,} bytes", flush=True)


def mixed(names):
    """Lines of all kinds, most of them points."""
    points = draws(names, 1)

    def lines(draw, tick):
        panel = draw.randrange(1, 9)
        more = [f"supply {panel} mains {draw.choice(['ok', 'bad'])}\n", f"link {panel} {draw.choice(['up', 'down'])}\n", f"cable {panel} 1 {draw.randrange(97)} open\n"]
        return points(draw, tick) + points(draw, tick) + points(draw, tick) + draw.choice(more)

    return lines


def measure_texts(panel, folder, seed, text, names):
    """A text of a run, cut to 1 MB at a line's end, with a last line that is none, so that it is read and nothing is written again."""
    if not TRIALS.exists():
        return print("trials isn't built: texts aren't read")
    panel.give_site(text)
    record(folder / "record", seed, mixed(names), 20_000)
    whole = text_of(panel.run(), folder / "record")
    room = folder / "texts"
    room.mkdir()
    (room / "site.toml").write_text(text)
    (room / "text").mkdir()
    (room / "text" / "cases").write_text("text site.toml a.text\n")
    lists = room / "lists"
    lists.write_text("text\n")
    times, counts, lengths, pages = [], [], [], []
    for part in (TEXT_BYTES // 2, TEXT_BYTES):
        cut = whole[: whole.rindex(b"\n", 0, part) + 1] + b"none\n"
        (room / "a.text").write_bytes(cut)
        lengths.append(len(cut))
        counts.append(in_folder(room, instructions, [TRIALS], lists))
        pages.append(in_folder(room, page_faults, [TRIALS], lists))
        times.append(min(in_folder(room, processor_seconds, [TRIALS], lists) for _ in range(7)))
    tell("read_faces", counts[1] - counts[0], lengths[1] - lengths[0])
    whole_text = TEXT_BYTES / (lengths[1] - lengths[0])
    print(f"read_faces: {1e3 * (times[1] - times[0]) * whole_text:,.1f} milliseconds of one processor for {TEXT_BYTES:,} bytes")
    taken = round((pages[1] - pages[0]) * whole_text)
    print(f"of these a program takes {1e3 * filling(folder, taken):,.1f} that only fills as many pages of fresh memory, {taken:,}")


def filling(folder, pages):
    """The time of one processor that filling so many pages takes."""
    filler = folder / "fresh_pages"
    subprocess.run(["rustc", "-O", "--edition", "2021", "-o", filler, TOP / "bench" / "fresh_pages.rs"], check=True)
    few, many = (min(processor_seconds([filler, str(count)]) for _ in range(7)) for count in (1, pages))
    return many - few


def in_folder(room, call, *words):
    here = os.getcwd()
    os.chdir(room)
    try:
        return call(*words)
    finally:
        os.chdir(here)
