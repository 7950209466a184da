"""`studio`: a page, served on this machine only, on which a song is timed, edited, seen and finished."""
import argparse
import json
import mimetypes
import struct
import webbrowser
from pathlib import Path
from typing import Any, Callable, NamedTuple

from ...common.failures import Missing
from ...common.library import PACK
from ...common.output import Outputs, add_force, tell, write_text, flush
from ...common.serving import Answer, Asked, Server, as_json
from ...common import kinds
from ...common.web import web
from ...common.words import Commands
from ...dumps.streams import Stream
from ...songs import audio
from ...songs.films import FilmForm, film_of
from ...songs.studio import Job, Studio, export_song, files_of
from ...songs.wishes import add_encoding

FOLDER = Path(__file__).parent / "studio_page"
EXPORTS = {"srt": ".srt", "ass": ".ass", "ultrastar": ".txt"}
PAGES = {"": "studio.html", **{name: name for name in ("studio.css", "studio.js", "times.js", "screen.js", "wave.js")}}
TYPES = {".html": "text/html; charset=utf-8", ".css": "text/css; charset=utf-8", ".wasm": "application/wasm"}
SCRIPT = "text/javascript; charset=utf-8"
BYTES = "application/octet-stream"
FILM_RATE = 25
# How long the page waits for pictures before it asks again, in seconds.
PATIENCE = 20.0


def add_parser(commands: Commands) -> None:
    parser = commands.add_parser(
        "studio",
        help="set the times of lyrics and edit them on a web page",
        description="Opens a web page in your browser, which only programs on this machine can open. You need only a "
        "text and a sound: press the space bar at each line or syllable while the song plays, and the page sets its "
        "time. You can edit words, times, singers, pages and styles. The page shows what the proved player draws, "
        "and marks late lines. A journal next to the song, SONG.studio, keeps every edit. The page saves the song as "
        "LRC, and makes a pair, a film or an entry of an album from it.",
    )
    parser.add_argument("song", type=Path, metavar="SONG", help="the lyrics, a text, or a folder with one of them")
    parser.add_argument(
        "--audio", type=Path, metavar="SOUND", help="the sound (the sound next to SONG with the same name)"
    )
    add_encoding(parser)
    parser.add_argument("--no-browser", action="store_true", help="print the address of the page, and open no browser")
    parser.add_argument("--export", choices=EXPORTS, help="write the song for another program, and open no page")
    parser.add_argument(
        "-o", "--output", type=Path, metavar="FILE", help="with --export, the file to write (named like SONG)"
    )
    add_force(parser)
    parser.set_defaults(run=run, parser=parser)


class Page(NamedTuple):
    """The page of a studio: the answer to each request."""

    studio: Studio
    close: Callable[[], None]

    def answer(self, asked: Asked) -> Answer | None:
        if asked.table is None:
            return self.read(asked)
        try:
            return self.change(asked.path, asked.table)
        except (KeyError, TypeError, ValueError) as error:
            return as_json({"error": f"the request is incomplete: {error}"}, 400)

    def read(self, asked: Asked) -> Answer | None:
        if asked.path in PAGES:
            return file_of(FOLDER / PAGES[asked.path])
        reads: dict[str, Callable[[], Answer | None]] = {
            "song": lambda: as_json(self.studio.state() | {"choices": self.studio.choices()}),
            "packs": lambda: self.packs(asked.query.get("revision", "0")),
            "peaks": lambda: Answer(self.studio.sound_peaks(), BYTES),
            "sound": self.sound,
            "job": lambda: as_json(self.studio.job.table()),
            "ribjasper.mjs": lambda: of_web("script"),
            "ribjasper.wasm": lambda: of_web("module"),
        }
        return reads[asked.path]() if asked.path in reads else None

    def packs(self, word: str) -> Answer:
        """A table and its packs, with the length of the table in front, four bytes. Nothing if this takes long."""
        made = self.studio.rehearsal.wait(int(word) if word.isascii() and word.isdigit() else 0, PATIENCE)
        if made is None:
            return as_json({"error": "not yet"}, 503)
        head = json.dumps(made.table()).encode()
        return Answer(struct.pack(">I", len(head)) + head + made.packs, BYTES)

    def sound(self) -> Answer:
        """The sound as a disc has it, since browsers find places in it exactly."""
        path, wave = audio.of_disc(self.studio.sound)
        return Answer(path, "audio/wav")

    def change(self, path: str, table: dict[str, Any]) -> Answer | None:
        studio = self.studio
        acts: dict[str, Callable[[], object]] = {
            "edit": lambda: studio.do(table["edit"]),
            "undo": studio.undo,
            "redo": studio.redo,
            "divide": lambda: studio.divide(table.get("line"), str(table["language"])),
        }
        writes: dict[str, Callable[[], list[str]]] = {
            "save": studio.save,
            "export": lambda: studio.export(str(table["ending"])),
        }
        if path in acts:
            acts[path]()
            return as_json(studio.state())
        if path in writes:
            return as_json({"written": writes[path](), "state": studio.state()})
        if path == "finish":
            return self.finish(str(table["what"]))
        if path == "close":
            self.close()
            return as_json({})
        return None

    def finish(self, what: str) -> Answer | None:
        studio = self.studio
        works: dict[str, Callable[[Job], None]] = {
            "pair": studio.make_pair,
            "mp3": lambda job: studio.make_pair(job, is_mp3=True),
            "zip": lambda job: studio.make_pair(job, is_packed=True),
            "film": lambda job: make_film(studio, job),
            "album": studio.add_to_album,
        }
        if what not in works:
            return None
        studio.begin_job(what, works[what])
        return as_json(studio.job.table())


def file_of(path: Path) -> Answer:
    kind = SCRIPT if path.suffix in (".js", ".mjs") else TYPES.get(path.suffix) or mimetypes.guess_type(path.name)[0]
    return Answer(path.read_bytes(), kind or BYTES)


def of_web(name: str) -> Answer | None:
    """A file of the proved library for pages, if it is built."""
    found = web()
    return file_of(getattr(found, name)) if found else None


def make_film(studio: Studio, job: Job) -> None:
    """Writes a film of the song next to it."""
    made = studio.ready()
    out = studio.lyrics.with_suffix(".mp4")
    count = max(1, round(made.blocks / 75 * FILM_RATE))
    form = FilmForm(studio.treated(), FILM_RATE)
    with Outputs([studio.lyrics, studio.sound], [(out, kinds.FILM)]) as outputs:
        with film_of(form, out, outputs.path(out, ".mp4")) as frames:
            for number, picture in enumerate(Stream(made.packs, PACK, 0, 0).frames(FILM_RATE, count)):
                frames.write(picture)
                job.done = number / count
    job.message = f"{out}: {made.blocks / 75:.1f} seconds"


def run(arguments: argparse.Namespace) -> int:
    if arguments.output and not arguments.export:
        arguments.parser.error("-o names the file of --export")
    if arguments.export:
        ending = EXPORTS[arguments.export]
        for line in export_song(arguments.song, ending, arguments.encoding, arguments.output, arguments.force):
            tell(line)
        return 0
    files = files_of(arguments.song, arguments.audio)
    if not web():
        raise Missing("the page needs the library for web pages; 'make web' builds it")
    studio = Studio(files, arguments.encoding, arguments.force)
    try:
        return serve(studio, not arguments.no_browser)
    finally:
        studio.close()


def serve(studio: Studio, opens: bool) -> int:
    """Serves the page until it is closed, or until a signal ends the desk."""
    with Server(lambda asked: page.answer(asked)) as server:
        page = Page(studio, server.end)
        write_text(f"{server.address}\n")
        flush()
        tell(
            f"{studio.lyrics}: open at this address, on this machine only; Ctrl-C ends it, and {studio.journal_path.name} keeps all edits"
        )
        if opens and not webbrowser.open(server.address):
            tell("no browser can be opened; open the address in one")
        server.serve_forever()
    return 0
