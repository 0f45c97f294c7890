"""Tries the page in Debian's firefox-esr: try_firefox.py PAGE.html [FOLDER [PART..]]

What a lecture does with the page (try_lecture.py), at the width of a desktop and of a phone, and some answers of the
examples. With FOLDER a picture of each width goes there, and nowhere with `-`; with PART.. only these are carried out,
as `answers` or `phone.student`. Where there is no firefox-esr it says so, and nothing fails.
"""
import os
import sys

import firefox
from try_browser import Try, part_of
import try_lecture

# (all exercises are tried in the other browser)
PARTS = ["answers"] + ["%s.%s" % (size, part) for size in try_lecture.SIZES for part in try_lecture.PARTS]


class FirefoxTry(Try):
    def __init__(self, page):
        super().__init__(page, firefox.Firefox)
        self.settled()

    def answers(self):
        """Some documents by some commands."""
        for name in ("count", "race", "peterson", "lost_update", "sort"):
            self.write(self.text_of(name + ".unity"))
            self.compare(name + " check", self.ask("get('check').click()"), self.text_of(name + ".expected"))
            self.traces(name)
            self.proof(name)


def main(page, folder=None, *only):
    if not firefox.is_there():
        print("firefox-esr is missing, so the page was not tried in it")
        return 0
    tried = FirefoxTry(page)
    for name in only or PARTS:
        part_of(tried, name)()
    for size in try_lecture.SIZES if folder and folder != "-" else ():
        tried.browser.resize(*try_lecture.SIZES[size])
        tried.write(tried.text_of("race.unity"))
        tried.ask("get('prove').click()")
        tried.browser.picture(os.path.join(folder, "firefox-%s.png" % size))
    tried.browser.end()
    print("the page in firefox: %d passed, %d failed" % (tried.passed, tried.failed))
    return 1 if tried.failed else 0


if __name__ == "__main__":
    sys.exit(main(*sys.argv[1:]))
