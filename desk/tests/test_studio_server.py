"""The server of the studio: who may send requests, what is written, and what a second studio does."""
import contextlib
import errno
import functools
import http.client
import json
import os
import re
import shutil
import signal
import struct
import subprocess
import sys
import threading
import time
import unittest
from pathlib import Path
from typing import Any, Iterator, NamedTuple
from unittest import mock

from fixtures import (
    DESK,
    FolderTest,
    desk,
    needs_ffmpeg,
    needs_font,
    needs_pillow,
    needs_plan,
    needs_program,
    write_wav,
)

from test_document import Dice, needs_mido

from ribjasper.commands.publish.studio import Page, make_film
from ribjasper.common.failures import Refusal
from ribjasper.common.serving import MOST_SENT, Server
from ribjasper.common.web import web
from ribjasper.drawing.styles import read_style
from ribjasper.songs import audio, hyphens
from ribjasper.songs.albums import read_album
from ribjasper.songs.edits import Edit
from ribjasper.songs.rehearsal import rehearsed
from ribjasper.songs.song_files import read_song
from ribjasper.songs.studio import Studio, files_of

TEXT = "One two\nthree four\n"
LRC = "[ti:A]\r\n[00:06.00]<00:06.00>One <00:06.50>two <00:07.00>\r\n[00:08.00]Three\r\n[00:11.00]\r\n"
FORMATS = {
    "l.lrc": LRC,
    "s.srt": "1\n00:00:05,000 --> 00:00:07,250\nOne two\n\n2\n00:00:08,000 --> 00:00:10,500\nthree\nfour\n",
    "v.vtt": "WEBVTT\n\n00:05.000 --> 00:07.250\n<v Ann>One <00:06.000>two\n\n00:08.000 --> 00:10.500\n<v Bob>three\n",
    "a.ass": "[Script Info]\nTitle: T\n\n[Events]\n"
    "Format: Layer, Start, End, Style, Name, MarginL, MarginR, MarginV, Effect, Text\n"
    "Dialogue: 0,0:00:05.00,0:00:07.00,Default,Ann,0,0,0,,{\\k50}One {\\k70}two\n"
    "Dialogue: 0,0:00:08.00,0:00:10.00,Default,Bob,0,0,0,,{\\k90}three\n",
    "u.txt": "#TITLE:T\n#ARTIST:A\n#BPM:240\n#GAP:5000\n: 0 8 0 One\n: 10 7 0  two\n- 20\n: 40 9 0 three\nE\n",
}
needs_web = unittest.skipUnless(web(), "lib/web is not built (make web)")


class Answered(NamedTuple):
    status: int
    content: bytes
    headers: dict[str, str]

    @property
    def table(self) -> dict[str, Any]:
        found: dict[str, Any] = json.loads(self.content)
        return found


class StudioTest(FolderTest):
    def song(self, name: str = "a.lrc", content: str = LRC, seconds: int = 14) -> Path:
        write_wav(self.folder / f"{Path(name).stem}.wav", 44_100 * seconds)
        return self.write(name, content)

    def studio(self, song: Path, force: bool = False) -> Studio:
        return self.studio_of(song, None, force)

    def studio_of(self, song: Path, sound: Path | None, force: bool = False) -> Studio:
        studio = Studio(files_of(song, sound), None, force)
        self.addCleanup(studio.close)
        return studio

    def names(self) -> set[str]:
        return {path.name for path in self.folder.iterdir()}


class ServerTest(StudioTest):
    @contextlib.contextmanager
    def served(self, studio: Studio) -> Iterator[Server]:
        with Server(lambda asked: Page(studio, server.end).answer(asked)) as server:
            thread = threading.Thread(target=server.serve_forever)
            thread.start()
            try:
                yield server
            finally:
                server.shutdown()
                thread.join()

    def ask(self, server: Server, path: str, table: object = None, **headers: str) -> Answered:
        """Requests a path after the token, or a whole path that begins with a slash."""
        connection = http.client.HTTPConnection("127.0.0.1", server.server_address[1], timeout=60)
        whole = path if path.startswith("/") else f"/{server.token}/{path}"
        named = {name.replace("_", "-"): value for name, value in headers.items()}
        try:
            if table is None:
                connection.request("GET", whole, headers=named)
            else:
                body = table if isinstance(table, bytes) else json.dumps(table).encode()
                connection.request("POST", whole, body, {"Content-Type": "application/json", **named})
            found = connection.getresponse()
            return Answered(found.status, found.read(), {name.lower(): value for name, value in found.getheaders()})
        finally:
            connection.close()

    def test_only_its_own_page_is_answered(self) -> None:
        with self.served(self.studio(self.song())) as server:
            own, edit = f"http://{server.host}", {"edit": {"do": "head", "title": "B"}}
            self.assertEqual(server.server_address[0], "127.0.0.1")
            self.assertEqual(self.ask(server, "song").status, 200)
            self.assertEqual(self.ask(server, "edit", edit, Origin=own).table["title"], "B")
            refused = [
                self.ask(server, "/song"),
                self.ask(server, "/"),
                self.ask(server, f"/{'x' * len(server.token)}/song"),
                self.ask(server, f"/{server.token[:-1]}/song"),
                self.ask(server, "song", Host="evil.example"),
                self.ask(server, "song", Host=f"localhost:{server.server_address[1]}"),
                self.ask(server, "song", Host="127.0.0.1"),
                self.ask(server, "song", Origin="http://evil.example"),
                self.ask(server, "edit", edit, Origin="null"),
                self.ask(server, "edit", edit, Origin=f"{own}.evil.example"),
                self.ask(server, "edit", edit, Origin="http://127.0.0.1:1"),
                self.ask(server, "undo", {}, Sec_Fetch_Site="cross-site"),
                self.ask(server, "/undo", {}),
            ]
            self.assertEqual([one.status for one in refused], [403] * len(refused))
            self.assertEqual(self.ask(server, "song").table["title"], "B")

    def test_a_page_loads_nothing_from_elsewhere(self) -> None:
        with self.served(self.studio(self.song())) as server:
            for name in ("", "studio.css", "studio.js", "times.js", "screen.js", "wave.js"):
                found = self.ask(server, name)
                self.assertEqual(found.status, 200, name)
                self.assertNotRegex(found.content.decode(), r"https?://")
                self.assertIn("default-src 'self'", found.headers["content-security-policy"])
                self.assertEqual(found.headers["referrer-policy"], "no-referrer")

    def test_no_other_file_is_read(self) -> None:
        self.write("secret.txt", "x")
        with self.served(self.studio(self.song())) as server:
            for path in ("../a.lrc", "a.lrc", "secret.txt", "..%2fsecret.txt", "%2e%2e/%2e%2e/etc/passwd", "studio.py", "./song",
                         "//etc/passwd", "sound/../song", "studio.html/", "packs/x"):  # fmt: skip
                with self.subTest(path=path):
                    self.assertIn(self.ask(server, f"/{server.token}/{path}").status, (404,))
            for edit in (
                {"do": "look", "look": {"title": "../secret.txt"}},
                {"do": "picture", "what": "/etc/passwd", "at": 1},
            ):
                self.assertEqual(self.ask(server, "edit", {"edit": edit}).status, 409)

    def test_bad_requests(self) -> None:
        with self.served(self.studio(self.song())) as server:
            self.assertEqual(self.ask(server, "edit", b"{").status, 400)
            self.assertEqual(self.ask(server, "edit", b"[" * 100_000).status, 400)
            self.assertEqual(self.ask(server, "edit", [1]).status, 400)
            self.assertEqual(self.ask(server, "edit", {}).status, 400)
            self.assertEqual(self.ask(server, "edit", {"edit": {"do": "tap"}}).status, 409)
            self.assertEqual(self.ask(server, "edit", {}, Content_Type="text/plain").status, 415)
            self.assertEqual(self.ask(server, "edit", b"{}", Content_Length=str(MOST_SENT + 1)).status, 413)
            self.assertEqual(self.ask(server, "nothing", {}).status, 404)
            self.assertEqual(self.ask(server, "finish", {"what": "x"}).status, 404)
            self.assertEqual(self.ask(server, "export", {"ending": "/../x"}).status, 409)
            self.assertEqual(self.ask(server, "packs?revision=x").status, 200)
        self.assertEqual(self.names(), {"a.lrc", "a.wav"})

    def test_a_fault_is_answered(self) -> None:
        """The server reports a bug of the desk to the page, and continues."""
        studio = self.studio(self.song())
        with self.served(studio) as server, mock.patch.object(studio, "undo", side_effect=ZeroDivisionError("x")):
            found = self.ask(server, "undo", {})
            self.assertEqual(found.status, 500)
            self.assertIn("an internal error of the desk", found.table["error"])
            self.assertEqual(self.ask(server, "song").status, 200)

    def test_the_sound_in_parts(self) -> None:
        song = self.song(seconds=1)
        content = (self.folder / "a.wav").read_bytes()
        with self.served(self.studio(song)) as server:
            self.assertEqual(self.ask(server, "sound").content, content)
            found = self.ask(server, "sound", Range="bytes=100-199")
            self.assertEqual((found.status, found.content), (206, content[100:200]))
            self.assertEqual(found.headers["content-range"], f"bytes 100-199/{len(content)}")
            self.assertEqual(self.ask(server, "sound", Range="bytes=-10").content, content[-10:])
            self.assertEqual(self.ask(server, "sound", Range=f"bytes={len(content) - 5}-").content, content[-5:])
            self.assertEqual(self.ask(server, "sound", Range=f"bytes={len(content)}-").status, 416)
            peaks = self.ask(server, "peaks").content
            samples = struct.unpack(f"<{882}h", content[44 : 44 + 2 * 882])
            self.assertEqual(struct.unpack("2b", peaks[:2]), (min(samples) >> 8, max(samples) >> 8))
            self.assertEqual(len(peaks), 2 * 100)

    @needs_plan
    @needs_program
    @needs_pillow
    @needs_font
    def test_packs_are_those_of_the_pair(self) -> None:
        song = self.song()
        with self.served(self.studio(song)) as server:
            self.ask(server, "edit", {"edit": {"do": "move", "lines": [1], "by": 0.5}})
            found = self.ask(server, "packs?revision=1").content
            long = int.from_bytes(found[:4], "big")
            result = json.loads(found[4 : 4 + long])
            self.assertEqual((result["revision"], result["error"], result["late"]), (1, "", []))
            self.ask(server, "save", {})
        self.assertEqual(desk("pair", song, "-o", self.folder / "b").status, 0)
        self.assertEqual(found[4 + long :], (self.folder / "b.cdg").read_bytes())


class FilesTest(StudioTest):
    def test_a_song_without_edits_is_saved_as_it_was(self) -> None:
        song = self.song()
        studio = self.studio(song)
        before = song.stat()
        self.assertEqual(studio.save(), ["a.lrc"])
        self.assertEqual((song.read_bytes(), song.stat().st_mtime_ns), (LRC.encode(), before.st_mtime_ns))

    def test_undoing_everything_gives_the_first_file(self) -> None:
        song = self.song()
        studio = self.studio(song)
        studio.do({"do": "page", "line": 2, "page": True})
        studio.do({"do": "move", "lines": [2], "by": 1})
        studio.save()
        self.assertEqual(read_song(song).lines[1].start, 9.0)
        self.assertTrue(read_song(song).lines[1].new_page)
        studio.undo()
        studio.undo()
        studio.save()
        self.assertEqual(song.read_bytes(), LRC.encode())
        self.assertFalse(read_song(song).lines[1].new_page)

    def test_the_journal_restores_what_was_not_saved(self) -> None:
        song = self.song("a.txt", TEXT)
        studio = self.studio(song)
        for key, at in ((1, 6.0), (2, 8.0)):
            studio.do({"do": "tap", "line": key, "at": at})
        studio.undo()
        state = studio.state()
        studio.close()
        again = self.studio(song)
        self.assertEqual({**again.state(), "revision": 2 + 1}, state)
        again.redo()
        self.assertEqual(again.save(), ["a.lrc"])
        self.assertEqual([line.start for line in read_song(self.folder / "a.lrc").lines], [6.0, 8.0])
        self.assertEqual(song.read_text(), TEXT)
        self.assertEqual(self.names(), {"a.txt", "a.wav", "a.lrc", "a.txt.studio", ".ribjasper-desk"})

    def test_proposed_syllables_are_one_edit(self) -> None:
        studio = self.studio(self.song("a.txt", TEXT))
        studio.do({"do": "tap", "line": 2, "word": 0, "at": 1.0})
        with mock.patch.object(hyphens, "syllables_of", side_effect=lambda text, _: list(text)):
            studio.divide(None, "en_US")
        self.assertEqual([len(line.words) for line in studio.score.lines], [7, 2])
        self.assertEqual(studio.state()["undo"], 2)
        studio.undo()
        self.assertEqual([len(line.words) for line in studio.score.lines], [2, 2])

    def test_nothing_is_saved_before_all_is_timed(self) -> None:
        studio = self.studio(self.song("a.txt", TEXT))
        studio.do({"do": "tap", "line": 1, "at": 1.0})
        with self.assertRaisesRegex(Refusal, "lines without all times: 2"):
            studio.save()
        with self.assertRaisesRegex(Refusal, "lines without all times: 2"):
            studio.export(".srt")
        self.assertNotIn("a.lrc", self.names())

    def test_lyrics_of_others_stay(self) -> None:
        """LRC files that neither the studio nor the desk wrote are not overwritten, and a list of an album only
        grows."""
        song = self.song("a.txt", TEXT)
        self.write("a.lrc", LRC)
        studio = self.studio(song)
        for key in (1, 2):
            studio.do({"do": "tap", "line": key, "at": 5.0 + key})
        with self.assertRaisesRegex(Refusal, "the desk did not write it"):
            studio.save()
        self.assertEqual((self.folder / "a.lrc").read_bytes(), LRC.encode())

    def test_a_file_that_changed_meanwhile_stays(self) -> None:
        song = self.song()
        studio = self.studio(song)
        studio.do({"do": "head", "title": "B"})
        song.write_text("[00:01.00]Mine\n")
        with self.assertRaisesRegex(Refusal, "was changed by another program"):
            studio.save()
        studio.close()
        with self.assertRaisesRegex(Refusal, "has edits of another version"):
            self.studio(song)
        self.assertEqual(song.read_text(), "[00:01.00]Mine\n")
        self.assertEqual(self.studio(song, force=True).score.lines[0].text, "Mine")

    def test_a_change_that_cannot_be_kept_is_not_made(self) -> None:
        studio = self.studio(self.song())
        studio.do({"do": "head", "title": "B"})
        studio.do({"do": "head", "title": "C"})
        for act in (lambda: studio.do({"do": "head", "title": "D"}), studio.undo):
            with mock.patch.object(os, "fsync", side_effect=OSError(errno.ENOSPC, "No space left on device")):
                with self.assertRaisesRegex(Refusal, "no space left"):
                    act()
            self.assertEqual((studio.score.title, studio.state()["undo"], studio.state()["redo"]), ("C", 2, 0))
        studio.close()
        self.assertEqual(self.studio(studio.lyrics).score.title, "C")

    def test_a_write_protected_song_stays(self) -> None:
        song = self.song()
        studio = self.studio(song)
        studio.do({"do": "head", "title": "B"})
        song.chmod(0o444)
        with self.assertRaisesRegex(Refusal, "is write-protected"):
            studio.save()
        self.assertEqual(song.read_bytes(), LRC.encode())

    def test_other_sounds_are_decoded(self) -> None:
        if not shutil.which("ffmpeg"):
            self.skipTest("ffmpeg is not installed")
        song = self.song("x.lrc", LRC, 3)
        words = ["ffmpeg", "-v", "error", "-i", str(self.folder / "x.wav"), str(self.folder / "y.mp3")]
        subprocess.run(words, check=True)
        (self.folder / "x.wav").unlink()
        studio = self.studio_of(song, self.folder / "y.mp3")
        self.assertAlmostEqual(studio.seconds, 3, delta=0.1)
        self.assertAlmostEqual(len(studio.sound_peaks()) / 200, 3, delta=0.1)

    def test_a_saved_song_that_changed_begins_again(self) -> None:
        song = self.song()
        studio = self.studio(song)
        studio.do({"do": "head", "title": "B"})
        studio.save()
        studio.close()
        self.assertEqual(self.studio(song).state()["undo"], 1)

    def test_a_second_studio_says_so(self) -> None:
        song = self.song()
        studio = self.studio(song)
        with self.assertRaisesRegex(Refusal, "is open in another studio"):
            self.studio(song)
        studio.do({"do": "head", "title": "B"})
        studio.save()
        with self.assertRaisesRegex(Refusal, "is open in another studio"):
            self.studio(song)
        studio.close()
        self.studio(song)

    def test_folders(self) -> None:
        write_wav(self.folder / "x.wav", 44_100)
        with self.assertRaisesRegex(Refusal, "has 0 files of lyrics"):
            files_of(self.folder, None)
        one = self.write("a.txt", TEXT)
        self.assertEqual(files_of(self.folder, None), (one, self.folder / "x.wav"))
        self.write("a.lrc", LRC)
        with self.assertRaisesRegex(Refusal, r"has 2 files of lyrics \(a.lrc, a.txt\)"):
            files_of(self.folder, None)
        self.write("a.txt.studio", "")
        self.assertEqual(files_of(self.folder, None).lyrics, one)
        with self.assertRaisesRegex(Refusal, "has no sound"):
            files_of(one, None)
        with self.assertRaisesRegex(Refusal, "no such file"):
            files_of(self.folder / "b.lrc", None)

    def test_exports(self) -> None:
        song = self.song()
        studio = self.studio(song)
        self.assertEqual(studio.export(".srt"), ["a.srt"])
        self.assertIn("00:00:06,000 --> 00:00:07,000\nOne two", (self.folder / "a.srt").read_text())
        studio.do({"do": "move", "lines": [1], "by": 1})
        studio.close()
        ran = desk("studio", song, "--export", "ass", "-o", self.folder / "b.ass")
        self.assertEqual(ran.status, 0, ran.errors)
        self.assertIn(
            "Dialogue: 0,0:00:07.00,0:00:08.00,Default,,0,0,0,,{\\k50}One {\\k50}two",
            (self.folder / "b.ass").read_text(),
        )
        self.write("c.srt", "mine")
        self.assertEqual(desk("studio", song, "--export", "srt", "-o", self.folder / "c.srt").status, 3)
        self.assertEqual(desk("studio", song, "-o", self.folder / "c.srt").status, 2)

    def test_albums_grow(self) -> None:
        song = self.song()
        studio = self.studio(song)
        self.write("album.toml", '# mine\n[[track]]\npair = "x.cdg"\n')
        studio.begin_job("album", studio.add_to_album)
        while not studio.job.is_over:
            time.sleep(0.01)
        self.assertEqual(studio.job.error, "")
        found = (self.folder / "album.toml").read_text()
        self.assertTrue(found.startswith('# mine\n[[track]]\npair = "x.cdg"\n'))
        self.assertIn('lyrics = "a.lrc"\nsound = "a.wav"\ntitle = "A"', found)


class PicturesTest(StudioTest):
    @needs_plan
    @needs_program
    @needs_pillow
    @needs_font
    def test_every_format_is_saved_without_loss(self) -> None:
        """A song that is opened and saved without edits gives the same script, whatever the kind of its file."""
        for name, text in FORMATS.items():
            with self.subTest(name=name):
                self.check_kept(self.song(name, text))

    @needs_mido
    @needs_plan
    @needs_program
    @needs_pillow
    @needs_font
    def test_karaoke_midi_is_saved_without_loss(self) -> None:
        song = self.song("k.kar", "", 60)
        Dice(3).kar(song)
        self.check_kept(song)

    def check_kept(self, song: Path) -> None:
        """The saved file gives the same script as the song, which is unchanged."""
        content = song.read_bytes()
        studio = self.studio(song)
        studio.save()
        studio.close()
        scripts = []
        for one in (song, song.with_suffix(".lrc")):
            out = self.folder / f"{one.name}.script"
            self.assertEqual(desk("lyrics", one, "-o", out).status, 0)
            scripts.append(out.read_text().partition("\n")[2])
        self.assertEqual(*scripts)
        self.assertEqual(song.read_bytes(), content)

    @needs_ffmpeg
    @needs_plan
    @needs_program
    @needs_pillow
    @needs_font
    def test_a_film_from_the_page(self) -> None:
        studio = self.studio(self.song())
        studio.begin_job("film", lambda job: make_film(studio, job))
        with self.assertRaisesRegex(Refusal, "film is still being made"):
            studio.begin_job("pair", studio.make_pair)
        while not studio.job.is_over:
            self.assertLess(studio.job.done, 1)
            time.sleep(0.02)
        self.assertEqual(studio.job.error, "")
        words = [
            "ffprobe",
            "-v",
            "error",
            "-show_entries",
            "format=duration",
            "-of",
            "csv=p=0",
            str(self.folder / "a.mp4"),
        ]
        shown = subprocess.run(words, capture_output=True, text=True).stdout
        self.assertAlmostEqual(float(shown), 14.0, delta=0.1)

    @needs_plan
    @needs_program
    @needs_pillow
    @needs_font
    def test_late_lines_are_reported(self) -> None:
        studio = self.studio(self.song("a.lrc", "[00:00.05]Too early for this\n[00:08.00]In time\n"))
        made = studio.ready()
        self.assertEqual([(one.line, one.what) for one in made.late], [(1, "drawn")])
        self.assertRegex(f"{made.late[0].seconds}", r"0\.\d+")
        ran = desk("lyrics", studio.lyrics, "--audio", studio.sound, "-o", self.folder / "a.script")
        self.assertIn(f"line 1 is drawn {made.late[0].seconds:.2f} seconds after it begins", ran.errors)

    @needs_plan
    @needs_program
    @needs_pillow
    @needs_font
    def test_finished_from_the_page(self) -> None:
        studio = self.studio(self.song())
        for is_packed in (False, True):
            studio.begin_job("pair", functools.partial(studio.make_pair, is_packed=is_packed))
            while not studio.job.is_over:
                time.sleep(0.01)
            self.assertEqual(studio.job.error, "")
        self.assertLessEqual({"a.cdg", "a.zip"}, self.names())
        self.assertEqual(desk("pair", studio.lyrics, "-o", self.folder / "b").status, 0)
        self.assertEqual((self.folder / "a.cdg").read_bytes(), (self.folder / "b.cdg").read_bytes())

    @needs_plan
    @needs_program
    @needs_pillow
    @needs_font
    def test_the_look_is_saved(self) -> None:
        """`pair` and `album` use the look that the studio saved."""
        studio = self.studio(self.song())
        studio.do({"do": "look", "look": {"style": "paper", "rows": 3}})
        packs = studio.ready().packs
        studio.begin_job("album", studio.add_to_album)
        while not studio.job.is_over:
            time.sleep(0.01)
        self.assertEqual(desk("pair", studio.lyrics, "-o", self.folder / "b").status, 0)
        self.assertEqual((self.folder / "b.cdg").read_bytes(), packs)
        self.assertEqual(desk("pair", studio.lyrics, "--style", "night", "-o", self.folder / "c").status, 0)
        self.assertNotEqual((self.folder / "c.cdg").read_bytes(), packs)
        album = read_album(self.folder / "album.toml")
        self.assertEqual([track.wishes.style.path for track in album.tracks], [read_style("paper").path])

    @needs_plan
    @needs_program
    @needs_pillow
    @needs_font
    def test_what_keeps_a_song_from_being_made(self) -> None:
        """The page shows why there are no pictures, and after later edits it has pictures again."""
        studio = self.studio(self.song())
        studio.do({"do": "move", "lines": [2], "by": 50})
        made = studio.rehearsal.wait(studio.revision, 60)
        assert made
        self.assertIn("begins after the sound", made.error)
        with self.assertRaisesRegex(Refusal, "begins after the sound"):
            studio.ready()
        studio.do({"do": "look", "look": {"title": "none.png"}})
        studio.undo()
        studio.undo()
        self.assertEqual(studio.ready().error, "")
        with mock.patch.object(audio, "treated", side_effect=OSError(errno.ENOENT, "gone")):
            studio.do({"do": "head", "title": "B"})
            made = studio.rehearsal.wait(studio.revision, 60)
        assert made
        self.assertIn("gone", made.error)
        studio.undo()
        self.assertEqual(studio.ready().error, "")

    @needs_plan
    @needs_program
    @needs_pillow
    @needs_font
    def test_known_needs_change_nothing(self) -> None:
        """After each edit, the packs equal those that are made without the cache of earlier edits."""
        rows = "".join(f"[00:{10 + 3 * n:02}.00]Line {n} of {n % 4}\n" for n in range(14))
        studio = self.studio(self.song("a.lrc", rows, 60))
        like, known = studio.opened.document.song, len(studio.known.answers)
        edits: list[Edit] = [
            {"do": "move", "lines": [5], "by": 0.3},
            {"do": "text", "line": 9, "texts": ["Another ", "text"]},
            {"do": "page", "line": 3, "page": True},
            {"do": "tap", "line": 7, "word": 1, "at": 29.0},
            {"do": "voice", "lines": [2, 6], "voice": 1},
            {"do": "look", "look": {"rows": 3}},
            {"do": "move", "from": 20.0, "by": 0.5},
        ]
        for edit in edits:
            studio.do(edit)
            made = studio.rehearsal.wait(studio.revision, 60)
            assert made
            plain = rehearsed(0, studio.score, like, studio.sound)
            self.assertEqual((made.error, made.packs, made.late), ("", plain.packs, plain.late), edit)
        self.assertGreater(len(studio.known.answers), known)

    @needs_plan
    @needs_program
    @needs_pillow
    @needs_font
    def test_a_page_break_begins_a_page(self) -> None:
        lines = "".join(f"[00:{10 + 2 * number}.00]Line {number}\n" for number in range(4))
        studio = self.studio(self.song("a.lrc", lines, 30))
        before = studio.ready().summary
        studio.do({"do": "page", "line": 3, "page": True})
        self.assertIn("4 lines on 1 page ", before)
        self.assertIn("4 lines on 2 pages ", studio.ready().summary)


@needs_web
class CommandTest(StudioTest):
    def start(self, song: Path) -> tuple[subprocess.Popen[str], str]:
        words = [sys.executable, str(DESK), "studio", str(song), "--no-browser"]
        child = subprocess.Popen(words, stdout=subprocess.PIPE, stderr=subprocess.PIPE, text=True)
        self.addCleanup(child.wait)
        self.addCleanup(child.kill)
        assert child.stdout
        self.addCleanup(child.stdout.close)
        assert child.stderr
        self.addCleanup(child.stderr.close)
        return child, child.stdout.readline().strip()

    def post(self, address: str, path: str, table: object) -> int:
        found = re.fullmatch(r"http://(127\.0\.0\.1:\d+)(/\S+/)", address)
        assert found
        connection = http.client.HTTPConnection(found[1], timeout=60)
        connection.request("POST", f"{found[2]}{path}", json.dumps(table), {"Content-Type": "application/json"})
        status = connection.getresponse().status
        connection.close()
        return status

    def test_an_edit_outlives_a_killed_desk(self) -> None:
        song = self.song("a.txt", TEXT)
        child, address = self.start(song)
        self.assertEqual(self.post(address, "edit", {"edit": {"do": "tap", "line": 1, "at": 2.5}}), 200)
        ran = desk("studio", song, "--no-browser")
        self.assertEqual((ran.status, "is open in another studio" in ran.errors), (3, True), ran.errors)
        child.send_signal(signal.SIGKILL)
        child.wait()
        self.assertEqual(self.studio(song).score.lines[0].start, 2.5)

    def test_it_ends(self) -> None:
        song = self.song()
        child, address = self.start(song)
        self.assertEqual(self.post(address, "close", {}), 200)
        self.assertEqual(child.wait(20), 0)
        child, address = self.start(song)
        child.send_signal(signal.SIGTERM)
        self.assertEqual(child.wait(20), 128 + signal.SIGTERM)
        self.assertEqual(self.names(), {"a.lrc", "a.wav"})


if __name__ == "__main__":
    unittest.main()
