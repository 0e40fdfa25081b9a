"""mutate_images: the same images and answers for the same number, and files that another verifier can be compared with."""

import os
import re

from support import ToolTest

from images import BadImage, decode, verify

ANSWER = r"bad image at \d+|unverified V-(Range|Argument|Flow|State|Depth|Type|Effect) \d+ \d+ \d+|verified"


class MutateImages(ToolTest):
    def said(self, name):
        with open(os.path.join(self.room, "made", name), "rb") as it:
            data = it.read()
        try:
            failure = verify(decode(data))
        except BadImage as it:
            return f"bad image at {it.at}"
        return "unverified {} {} {} {}".format(*failure) if failure else "verified"

    def test_what_is_written_has_the_answers_that_are_counted(self):
        ran = self.tool("mutate_images", "--write", "made", "40", "7")
        *counts, last = ran.stdout.splitlines()
        self.assertEqual((ran.returncode, last), (0, "40 changed images, 0 faults"))
        self.assertEqual(sum(int(it.rsplit(" ", 1)[1]) for it in counts), 40)
        rows = [it.split(": ", 1) for it in self.read("made/answers").splitlines()]
        self.assertEqual([it[0] for it in rows], [f"{at:05}.img" for at in range(40)])
        for name, said in rows:
            self.assertRegex(said, f"^({ANSWER})$")
            self.assertEqual(self.said(name), said)
        self.assertGreater(len({re.sub(r" at .*| \d.*", "", said) for _, said in rows}), 3)
        self.assertEqual(self.tool("mutate_images", "40", "7").stdout, ran.stdout)

    def test_faulty_words(self):
        for words in (("many", "1"), ("1",), ("--write", "made", "1")):
            self.assertEqual(self.tool("mutate_images", *words).returncode, 2)
