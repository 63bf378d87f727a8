"""Tests of draw.py: the sectors of a flash."""

import glob
import os
import random
import re
import unittest
import xml.etree.ElementTree as ET

from tests.drawn import INSPECT, PICTURES, SVG, Pictures, Said, needs_inspect
from drawing.causes import Cause, NotDrawn
from drawing.image import image_of, name_of
from drawing.program import TOP, Program
from drawing.sectors import sectors


class Flash(Pictures):
    """Pictures of the sectors of a flash."""

    def dump(self, name: str) -> bytes:
        """Returns a dump."""
        with open(name, "rb") as file:
            return file.read()

    def test_dumps(self) -> None:
        for path in (
            *glob.glob(os.path.join(PICTURES, "*.dump")),
            os.path.join(TOP, "crates", "flt_inspect", "data", "dump"),
        ):
            for width in (320, 400, 880, 1280):
                with self.subTest(path=path, width=width):
                    texts = self.check(
                        sectors(self.dump(path), None, "a dump", Said("generation 7"), width), width
                    )
                    self.assertIn("The flash holds generation 7", " ".join(texts))

    @needs_inspect
    def test_records_are_those_of_inspect(self) -> None:
        for path in (
            *glob.glob(os.path.join(PICTURES, "*.dump")),
            os.path.join(TOP, "crates", "flt_inspect", "data", "dump"),
        ):
            dump = self.dump(path)
            image = image_of(dump, None, "a dump")
            current = image.sectors[image.current or 0]
            _, lines = Program([INSPECT or ""]).run("inspect", dump, (0, 6))
            found = [f"sector {image.current} sequence {current.sequence}"]
            for record in current.records[2:]:
                data = {"complete": f" length {len(record.data or b'')}"}.get(record.kind, "")
                if record.kind != "blank":
                    found.append(f"page {record.page} block {record.block}{data} {record.kind}")
            told = [re.sub(r" length \d+ incomplete", " incomplete", line) for line in lines[1:]]
            self.assertEqual(found, told)

    def test_green_is_what_the_commit_names(self) -> None:
        for name, greens in (("cut_before_a_commit", 0), ("cut_in_a_switch", 3)):
            dump = self.dump(os.path.join(PICTURES, f"{name}.dump"))
            root = ET.fromstring(sectors(dump, None, "a dump", Said("generation 1"), 1280))
            boxes = [it for it in root.iter(f"{SVG}path") if it.get("class") == "on-green green"]
            # The legend has one more box, and a record that goes on in the next row has two.
            self.assertIn(len(boxes), (0,) if not greens else (greens + 1, greens + 2))

    def test_bytes_of_an_image(self) -> None:
        dump = self.dump(os.path.join(PICTURES, "cut_in_a_switch.dump"))
        config, _, pages = dump.decode().partition("image\n")
        image = bytes.fromhex(pages)
        said = Said("generation 1")
        self.assertEqual(
            sectors(dump, None, "it", said, 880), sectors(config.encode(), image, "it", said, 880)
        )
        for given, data in (
            (config.encode(), image[:-1]),
            (dump, image),
            (config.encode(), None),
            (dump[:-9], None),
            (dump + b"0G\n", None),
        ):
            with self.assertRaises(NotDrawn) as refused:
                sectors(given, data, "it", said, 880)
            self.assertEqual(refused.exception.cause, Cause.REFUSED)

    def test_any_pages(self) -> None:
        dump = self.dump(os.path.join(PICTURES, "cut_in_a_switch.dump"))
        config, _, pages = dump.decode().partition("image\n")
        for seed in range(40):
            dice = random.Random(seed)
            image = bytearray(bytes.fromhex(pages))
            for _ in range(dice.choice((1, 30, 600))):
                image[dice.randrange(len(image))] = dice.randrange(256)
            self.check(
                sectors(
                    config.encode(), bytes(image), "it", Said("refused sector 0 page 0", 6), 560
                ),
                560,
            )

    def test_names_of_blocks(self) -> None:
        rows = (
            (8, "mark"),
            (17, "commit 2"),
            (25, "summary/1"),
            (56, "states 48-63/0"),
            (192, "states 64-79/0"),
            (185, "entry 15/1"),
            (520, "block 1"),
            (9999, "number 9999"),
        )
        for number, name in rows:
            self.assertEqual(name_of(number), name)


if __name__ == "__main__":
    unittest.main()
