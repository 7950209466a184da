"""`sheet` of discs whose content is known: codes, sessions, jumps, cuts, the sheets of other tools, and differences."""
import configparser
import itertools
import json
import re
import subprocess
import unittest
from pathlib import Path

import known_dumps as known
from fixtures import BLOCK, FolderTest, Ran, Word, desk, needs_cdrdao, needs_library
from known_dumps import Disc, Track, program
from ribjasper.dumps.comparing import read_cue


def coded(tracks: int = 99, seconds: int = 5) -> Disc:
    """A disc of short tracks, each with its own code, which its first block may carry."""
    step = 75 * seconds
    made = [
        Track(number, 150 + step * (number - 1), 0 if number == 1 else None, isrc=f"DEXYZ26{number:05}")
        for number in range(1, tracks + 1)
    ]
    return Disc(made, 150 + step * tracks, catalogue="0123456789012")


def three() -> Disc:
    tracks = [
        Track(1, 150, 0, control=2),
        Track(2, 150 + 75 * 20, 150 + 75 * 18),
        Track(3, 150 + 75 * 40, indexes={2: 150 + 75 * 45}, control=1),
    ]
    return Disc(tracks, 150 + 75 * 60)


@needs_library
class SheetOfDumpsTest(FolderTest):
    def sheet(self, content: bytes, *words: str | Path, name: str = "dump") -> tuple[list[str], Ran]:
        ran = desk("sheet", self.write(name, content), *words)
        self.assertEqual(ran.status, 0, ran.errors)
        return [line.strip() for line in ran.out.splitlines()], ran

    def test_each_track_has_its_own_code(self) -> None:
        disc = coded()
        lines, ran = self.sheet(program(disc, 150, disc.end, 0))
        codes = [line.split()[1] for line in lines if line.startswith("ISRC")]
        self.assertEqual(codes, [track.isrc for track in disc.tracks])
        self.assertEqual(ran.errors, "")

    def test_a_track_without_a_code_gets_none(self) -> None:
        disc = coded(12)
        for number in (3, 7):
            disc.tracks[number].isrc = ""
        lines, _ = self.sheet(program(disc, 150, disc.end, 0))
        own = re.findall(r"TRACK (\d\d)[^T]*?ISRC (\w+)", " ".join(lines))
        self.assertEqual(own, [(f"{track.number:02}", track.isrc) for track in disc.tracks if track.isrc])

    def test_most_frames_tell_a_code(self) -> None:
        disc, stream = coded(3, 60), bytearray()
        stream += program(disc, 150, disc.end, 0)
        other = known.q_frame(bytes([3]) + known.recording_code("GBAAA2600001") + bytes(1))
        stream[BLOCK * 60 : BLOCK * 61] = known.with_q(bytes(BLOCK), other)
        lines, ran = self.sheet(bytes(stream))
        self.assertIn(f"ISRC {disc.tracks[0].isrc}", lines)
        found = re.search(rf"track 01: ISRC {disc.tracks[0].isrc} by (\d+) of (\d+) frames", ran.errors)
        assert found
        self.assertEqual(int(found[1]) + 1, int(found[2]))

    def test_a_jump_is_reported_and_times_are_those_of_the_file(self) -> None:
        disc = three()
        stream = program(disc, 150, disc.end, 0)
        lines, ran = self.sheet(stream[: BLOCK * 500] + stream[BLOCK * 575 :])
        self.assertIn("the time jumps from 00:08:49 to 00:09:50", ran.errors)
        self.assertEqual(lines[1], "REM TIMES FILE")
        self.assertIn("INDEX 01 00:19:00", lines)
        lines, ran = self.sheet(stream[: BLOCK * 500] + stream[BLOCK * 575 :], "--times", "disc")
        self.assertEqual(lines[1], "REM TIMES DISC")
        self.assertIn("INDEX 01 00:20:00", lines)
        whole, _ = self.sheet(stream)
        self.assertIn("INDEX 01 00:20:00", whole)
        self.assertIn("INDEX 00 00:18:00", whole)
        self.assertIn("INDEX 02 00:45:00", whole)

    def test_a_cut_dump(self) -> None:
        disc = three()
        lines, ran = self.sheet(program(disc, 150 + 75 * 10, disc.end, 0))
        self.assertIn("the file begins at the absolute time 00:12:00", ran.errors)
        self.assertIn("INDEX 01 00:10:00", lines)
        self.assertIn("INDEX 01 00:30:00", lines)

    def test_a_long_pause_before_the_first_track(self) -> None:
        """It may contain hidden music."""
        disc = Disc([Track(1, 150 + 75 * 4, 0), Track(2, 150 + 75 * 10)], 150 + 75 * 20)
        for stream in (program(disc, 150, disc.end, 0), known.lead_in(disc, 60) + program(disc, 0, disc.end, 0)):
            lines, _ = self.sheet(stream)
            self.assertEqual(
                [line for line in lines if line.startswith("INDEX")],
                ["INDEX 00 00:00:00", "INDEX 01 00:04:00", "INDEX 01 00:10:00"],
            )

    def test_redumper(self) -> None:
        disc = three()
        lines, _ = self.sheet(known.redumper(disc, 300, 0))
        self.assertIn("--lead-in 45000", lines[0])
        self.assertEqual(
            [line for line in lines if line.startswith("INDEX 01")],
            [f"INDEX 01 00:{at}:00" for at in ("00", "20", "40")],
        )

    def test_sessions_of_files_beside(self) -> None:
        disc = three()
        self.write(
            "dump.ccd", "[CloneCD]\r\nVersion=3\r\n[Disc]\r\nSessions=2\r\n[Entry 0]\r\nSession=2\r\nPoint=0x03\r\n"
        )
        lines, ran = self.sheet(program(disc, 150, disc.end, 0), name="dump.sub")
        place = lines.index("TRACK 03 AUDIO")
        self.assertEqual(lines[place - 1], "REM SESSION 02")
        self.assertEqual(lines[lines.index("TRACK 01 AUDIO") - 1], "REM SESSION 01")
        self.assertIn("2 sessions", ran.errors)

    def test_sessions_by_a_lead_in_between(self) -> None:
        disc = three()
        first, second = program(disc, 150, 150 + 75 * 40, 0), program(disc, 150 + 75 * 40, disc.end, 0)
        lines, _ = self.sheet(first + known.lead_in(disc, 200) + second)
        self.assertEqual(lines[lines.index("TRACK 03 AUDIO") - 1], "REM SESSION 02")

    def two_sessions(self) -> tuple[Disc, Disc]:
        first = Disc([Track(1, 150, 0), Track(2, 150 + 75 * 20)], 150 + 75 * 40)
        return first, known.after(first, 1, 30, control=4)

    def test_two_sessions(self) -> None:
        """The lead-outs belong to the disc, whichever of its lead-ins and lead-outs are in the dump."""
        first, second = self.two_sessions()
        whole = known.two_sessions(first, second)
        ends = first.end, second.end
        head, gap = known.lead_in(first, 300) + program(first, 0, 150, 0), first.end - 150
        between = gap + 6750 + 4500
        dumps = {
            "whole": head + whole,
            "no first lead-in": whole,
            "no second lead-in": whole[: BLOCK * (gap + 6750)] + whole[BLOCK * between :],
            "no lead-out": whole[: BLOCK * gap] + whole[BLOCK * (gap + 6750) :],
            "the first lead-in, no gap": head + whole[: BLOCK * gap] + whole[BLOCK * between :],
            "a few frames of the gap": whole[: BLOCK * (gap + 30)] + whole[BLOCK * (between - 40) :],
        }
        for case, content in dumps.items():
            path = self.write("dump", content)
            ran = desk("sheet", path, "--ccd")
            self.assertEqual(ran.status, 0, ran.errors)
            sheet = configparser.ConfigParser()
            sheet.read_string(ran.out)
            entries = [sheet[name] for name in sheet.sections() if name.startswith("Entry")]
            found = {(int(it["Session"]), int(it["Point"], 0)): int(it["PLBA"]) for it in entries}
            self.assertEqual(sheet["Disc"]["Sessions"], "2", case)
            self.assertEqual((found[1, 0xA2] + 150, found[2, 0xA2] + 150), ends, case)
            self.assertEqual(
                {key: time + 150 for key, time in found.items() if key[1] < 100},
                {(1, 1): 150, (1, 2): 1650, (2, 3): second.tracks[0].start},
                case,
            )
            row = desk("identify", path).rows()[0]
            first_end, last_end = (f"{time // 4500:02}:{time // 75 % 60:02}:{time % 75:02}" for time in ends)
            message = f"2 sessions: tracks 01 to 02, lead-out (by the usual gap, )?at {first_end}; track 03, lead-out .*{last_end}"
            self.assertRegex(row["notes"], message, case)
            by_session: dict[int | None, list[str]] = {None: ["00:20:00"] * 2, 1: ["00:20:00"] * 2, 2: ["00:32:00"]}
            for session, lengths in by_session.items():
                session_words: list[Word] = []
                if session is not None:
                    session_words = ["--session", session]
                ran = desk("sheet", path, "--toc", *session_words)
                self.assertEqual(ran.status, 0, ran.errors)
                tracks = re.findall(r'FILE "[^"]*" \S+ (\S+)', ran.out)
                self.assertEqual(tracks, lengths, (case, session))
                self.assertEqual("describes session 1 of 2" in ran.errors, session is None)
            self.assertEqual(desk("sheet", path, "--toc", "--session", 3).status, 3)

    def test_two_sessions_without_a_word_of_the_gap(self) -> None:
        """Only a sheet next to the dump states the end of a session. The desk assumes the usual gap, and reports this."""
        first, second = self.two_sessions()
        whole = known.two_sessions(first, second)
        gap = first.end - 150
        path = self.write("dump.sub", whole[: BLOCK * gap] + whole[BLOCK * (gap + 6750 + 4500) :])
        self.write(
            "dump.cue",
            'REM SESSION 01\nFILE "a" BINARY\nTRACK 01 AUDIO\nTRACK 02 AUDIO\nREM SESSION 02\nTRACK 03 MODE1/2352\n',
        )
        ran = desk("sheet", path, "--ccd")
        self.assertIn("no frame or file names the start of the lead-out of session 1: the usual gap", ran.errors)
        sheet = configparser.ConfigParser()
        sheet.read_string(ran.out)
        outs = [
            int(sheet[name]["PLBA"]) + 150
            for name in sheet.sections()
            if name.startswith("Entry") and sheet[name]["Point"] == "0xa2"
        ]
        self.assertEqual(outs, [first.end, second.end])

    def test_sessions_in_a_report(self) -> None:
        first, second = self.two_sessions()
        self.write("dumps/two", known.two_sessions(first, second))
        self.write("dumps/one", program(three(), 150, three().end, 0))
        self.assertEqual(desk("report", self.folder / "dumps", "-o", self.folder / "out", "--no-pictures").status, 0)
        rows = [json.loads(line) for line in (self.folder / "out" / "table.jsonl").read_text().splitlines()]
        self.assertEqual([len(row["sessions"]) for row in rows], [1, 2])
        self.assertIn("tracks 01 to 02, lead-out at 00:42:00", rows[1]["sessions"][0])

    def test_an_index_that_begins_with_a_code(self) -> None:
        """A frame with the catalogue number or a code has no index: if the codes or control bits of the tracks show
        where the index begins, it begins there; otherwise the sheet says that it may."""
        for where, hides, has_codes, controls in itertools.product((0, 2), (5, 6), (False, True), ((0, 0), (0, 4))):
            start = 150 + 75 * 20
            tracks = [
                Track(1, 150, 0, controls[0]),
                Track(2, start, start - 100, controls[1], indexes={2: start + 500}),
            ]
            if has_codes:
                tracks[0].isrc, tracks[1].isrc = "DEXYZ2600001", "DEXYZ2600002"
            disc = Disc(tracks, 150 + 75 * 40)
            at = start - 100 if where == 0 else start + 500
            parts = [disc.program_frame(block) for block in range(150, disc.end)]
            if has_codes:
                for block in (200, 400, at + 60):
                    track = disc.track(block)
                    parts[block - 150] = known.q_frame(
                        bytes([track.control << 4 | 3])
                        + known.recording_code(track.isrc)
                        + bytes([known.bcd(block % 75)])
                    )
            track = disc.track(at)
            if hides == 5:
                hiding = known.q_frame(
                    bytes([track.control << 4 | 2]) + known.digits("0123456789012000") + bytes([known.bcd(at % 75)])
                )
            else:
                code = track.isrc or "DEXYZ2600009"
                hiding = known.q_frame(
                    bytes([track.control << 4 | 3]) + known.recording_code(code) + bytes([known.bcd(at % 75)])
                )
            parts[at - 150] = hiding
            lines, ran = self.sheet(b"".join(known.with_q(bytes(BLOCK), frame) for frame in parts))
            proved = where == 0 and (controls[0] != controls[1] or (has_codes and hides == 6))
            found = [line for line in lines if line.startswith(f"INDEX {where:02}") and line != "INDEX 00 00:00:00"]
            time = at - 150 + (not proved)
            self.assertEqual(
                found,
                [f"INDEX {where:02} {time // 4500:02}:{time // 75 % 60:02}:{time % 75:02}"],
                (where, hides, has_codes, controls),
            )
            self.assertEqual(f"index {where:02} begins between" in ran.errors, not proved, ran.errors)

    def test_texts_are_utf_8_or_latin_1(self) -> None:
        disc = three()
        texts = known.text_packs(0, 0, {0x80: ["Café".encode("latin-1"), b"One", b"Two", b"Three"]})
        texts += known.size_packs(0, len(texts), 0, 3, texts, {0: 9}, {0: len(texts) + 2})
        disc.texts = b"".join(texts)
        stream = known.lead_in(disc, 60) + program(disc, 0, disc.end, 0)
        path = self.write("dump", stream)
        for words, wanted, message in (((), "Café".encode(), "UTF-8"), (("--latin-1",), b"Caf\xe9", "Latin-1")):
            out = self.folder / f"out{len(words)}.cue"
            ran = desk("sheet", path, "-o", out, *words)
            self.assertEqual(ran.status, 0, ran.errors)
            self.assertIn(b'TITLE "%b"' % wanted, out.read_bytes())
            self.assertIn(message, ran.errors)

    def test_clone_cd(self) -> None:
        disc = three()
        _, ran = self.sheet(known.lead_in(disc, 60) + program(disc, 0, disc.end, 0), "--ccd")
        sheet = configparser.ConfigParser()
        sheet.read_string(ran.out)
        self.assertEqual(sheet["Disc"]["Sessions"], "1")
        entries = {int(sheet[name]["Point"], 0): sheet[name] for name in sheet.sections() if name.startswith("Entry")}
        self.assertEqual(int(sheet["Disc"]["TocEntries"]), len(entries))
        self.assertEqual(
            {point: int(entry["PLBA"]) for point, entry in entries.items() if point < 100}, {1: 0, 2: 1500, 3: 3000}
        )
        self.assertEqual([entries[0xA2][name] for name in ("PMin", "PSec", "PFrame", "PLBA")], ["1", "2", "0", "4500"])
        self.assertEqual((entries[0xA0]["PMin"], entries[0xA1]["PMin"], entries[1]["Control"]), ("1", "3", "0x02"))
        self.assertEqual(
            (sheet["TRACK 2"]["INDEX 0"], sheet["TRACK 2"]["INDEX 1"], sheet["TRACK 3"]["INDEX 2"]),
            ("1350", "1500", "3375"),
        )

    def test_cdrdao(self) -> None:
        disc = coded(3, 20)
        lines, _ = self.sheet(known.lead_in(disc, 60) + program(disc, 0, disc.end, 0), "--toc")
        self.assertEqual(lines[0], "CD_DA")
        self.assertIn('CATALOG "0123456789012"', lines)
        self.assertEqual(
            [line for line in lines if line.startswith("FILE")],
            [f'FILE "dump.wav" 00:{at}:00 00:20:00' for at in ("00", "20", "40")],
        )
        self.assertEqual(
            [line for line in lines if line.startswith("ISRC")], [f'ISRC "{track.isrc}"' for track in disc.tracks]
        )

    @needs_cdrdao
    def test_cdrdao_takes_it(self) -> None:
        disc = three()
        out = self.folder / "dump.toc"
        self.sheet(known.lead_in(disc, 60) + program(disc, 0, disc.end, 0), "--toc", "-o", out)
        (self.folder / "dump.wav").write_bytes(b"")
        ran = subprocess.run(["cdrdao", "show-toc", out], capture_output=True, text=True, cwd=self.folder)
        self.assertIn("TRACK", ran.stdout + ran.stderr)

    def test_what_differs(self) -> None:
        disc = coded(3, 20)
        path = self.write("dump", known.lead_in(disc, 60) + program(disc, 0, disc.end, 0))
        own = self.folder / "own.cue"
        desk("sheet", path, "-o", own)
        ran = desk("sheet", path, "--compare", own)
        self.assertEqual((ran.status, ran.rows()), (0, []), ran.errors)
        changed = (
            own.read_text().replace("INDEX 01 00:20:00", "INDEX 01 00:20:05").replace("DEXYZ2600003", "DEXYZ2600009")
        )
        other = self.write("other.cue", changed.replace("CATALOG 0123456789012\n", ""))
        ran = desk("sheet", path, "--compare", other)
        self.assertEqual(ran.status, 1)
        rows = [tuple(row.values()) for row in ran.rows()]
        self.assertEqual(
            rows,
            [
                ("-", "catalog", "-", "0123456789012", "-", "-"),
                ("02", "index 01", "00:20:00", "00:20:00", "00:20:05", "file"),
                ("03", "isrc", "-", "DEXYZ2600003", "DEXYZ2600009", "-"),
            ],
        )

    def test_a_sheet_compared_with_its_own_dump(self) -> None:
        """Whatever the dump lacks, and from wherever times count, a sheet does not differ from the dump from which it
        was made."""
        disc = coded(3, 20)
        whole = known.lead_in(disc, 60) + program(disc, 0, disc.end, 0)
        program_only = program(disc, 150, disc.end, 0)
        dumps = {
            "whole": whole,
            "a jump": whole[: BLOCK * 900] + whole[BLOCK * 975 :],
            "two jumps": whole[: BLOCK * 900] + whole[BLOCK * 975 : BLOCK * 2500] + whole[BLOCK * 2700 :],
            "a repeated second": program_only[: BLOCK * 900] + program_only[BLOCK * 850 :],
            "begun late": program_only[BLOCK * 600 :],
            "begun late, a jump": program_only[BLOCK * 600 : BLOCK * 2000] + program_only[BLOCK * 2100 :],
        }
        for case, content in dumps.items():
            path = self.write("dump", content)
            for words in ((), ("--times", "disc"), ("--times", "file")):
                own = self.folder / "own.cue"
                self.assertEqual(desk("sheet", path, "-o", own, *words).status, 0)
                ran = desk("sheet", path, "--compare", own)
                self.assertEqual((ran.status, ran.rows()), (0, []), (case, words))
        own.write_text(own.read_text().replace("INDEX 01 00:40:00", "INDEX 01 00:39:74"))
        self.assertEqual(desk("sheet", self.write("dump", whole), "--compare", own).rows()[0]["times"], "file")

    def test_a_cue_of_several_files(self) -> None:
        disc = three()
        path = self.write("dump", known.lead_in(disc, 60) + program(disc, 0, disc.end, 0))
        for name, seconds in (("1.bin", 18), ("2.bin", 22), ("3.bin", 20)):
            with open(self.folder / name, "wb") as file:
                file.truncate(2352 * 75 * seconds)
        cue = self.write(
            "dump.cue",
            'FILE "1.bin" BINARY\n  TRACK 01 AUDIO\n    FLAGS DCP\n    INDEX 01 00:00:00\n'
            'FILE "2.bin" BINARY\n  TRACK 02 AUDIO\n    INDEX 00 00:00:00\n    INDEX 01 00:02:00\n'
            'FILE "3.bin" BINARY\n  TRACK 03 AUDIO\n    INDEX 01 00:00:00\n    INDEX 02 00:05:00\n',
        )
        ran = desk("sheet", path, "--compare", cue)
        self.assertEqual((ran.status, ran.rows()), (0, []), ran.errors)
        (self.folder / "2.bin").unlink()
        ran = desk("sheet", path, "--compare", cue)
        self.assertIn("the times of later files are not known", ran.errors)

    def test_a_cue_with_strange_names_and_numbers(self) -> None:
        """A name that no file can have names no file, and digits of other scripts are accepted as numbers or as parts
        of words."""
        text = 'FILE "a\0b.bin" BINARY\nTRACK ² AUDIO\nTRACK 01 AUDIO\nINDEX ² 00:00:00\nINDEX 01 00:00:00\n'
        cue = read_cue("a.cue", text.encode())
        self.assertEqual([(it.number, it.indices) for it in cue.tracks], [(1, {1: 0})])

    def test_contents_against_q(self) -> None:
        disc, other = three(), three()
        other.tracks[1].start += 3
        path = self.write("dump", known.lead_in(disc, 60) + program(other, 0, disc.end, 0))
        cue = self.folder / "q.cue"
        desk("sheet", path, "-o", cue)
        ran = desk("sheet", path, "--compare", cue)
        self.assertEqual(ran.status, 1)
        self.assertEqual([tuple(row.values())[:4] for row in ran.rows()], [("02", "index 01", "00:20:00", "00:20:03")])


if __name__ == "__main__":
    unittest.main()
