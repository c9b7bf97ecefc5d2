"""The pictures of this folder, drawn with characters: writes each as a PPM file (P6) beside this script.

    python3 examples/pictures.py
"""

import pathlib

# For each picture: what each character stands for, in red, green and blue, and the rows.
PICTURES = {
    # Houses, trees and roads, seen from above.
    "village": (
        {
            ".": (120, 178, 92),
            "r": (96, 96, 104),
            "h": (188, 84, 60),
            "H": (150, 62, 46),
            "t": (52, 110, 58),
        },
        """
................
.hhh..r..hhhh.t.
.HHH..r..HHHH...
......r.........
rrrrrrrrrrrrrrrr
......r.......r.
.t....r..hhh..r.
...hh.r..HHH..r.
...HH.r.......r.
......r..t....r.
..t...rrrrrrrrr.
......r.........
.hhhh.r..t..hh..
.HHHH.r.....HH..
......r..t......
..t...r.........
""",
    ),
    # A cave with a pool.
    "cave": (
        {
            "#": (58, 50, 56),
            "o": (92, 78, 74),
            ".": (186, 160, 116),
            "w": (52, 110, 150),
            "b": (96, 170, 190),
        },
        """
####################
####oooo######oooo##
###oo..oo####oo..o##
##oo....oo##oo...oo#
#oo......oooo.....o#
#o...............oo#
#oo...bbbb....oooo##
##o..bbwwbb..oo#####
##o..bwwwwb..o######
##oo.bbwwbb.oo######
###o..bbbb..o#######
###oo......oo##oooo#
####oo...ooo###o..o#
#####oo.oo#####oo.o#
######o.o#######o.o#
##ooooo.ooooooooo.o#
##o...............o#
##oooo.oooooooooooo#
#####ooo############
####################
""",
    ),
    # Flowers on the ground.
    "garden": (
        {
            ".": (206, 232, 244),
            "|": (70, 140, 70),
            "y": (244, 200, 60),
            "p": (220, 90, 130),
            "#": (120, 84, 52),
            "g": (96, 160, 80),
        },
        """
....................
.....p..............
....pyp.......p.....
.....p.......pyp....
.....|........p.....
.....|........|.....
..p..||||.....|.....
.pyp....|.....|..p..
..p.....|..||||.pyp.
..|.....|..|.....p..
..|||...|..|.....|..
....|...|..|.....|..
....|||||..|..||||..
......|....|..|.....
......|....||||.....
......|......|......
gggggggggggggggggggg
####################
####################
####################
""",
    ),
    # A circuit board.
    "circuit": (
        {
            ".": (22, 66, 48),
            "-": (92, 190, 120),
            "o": (222, 190, 90),
            "#": (26, 28, 34),
            "s": (180, 184, 190),
        },
        """
.....-..........-...
.....-..........-...
--o..-..o-------o...
.....-..-...........
.....o..-...s.s.s...
........-..########.
...o----o.s########.
...-.......########.
...-.......########.
...-......s########.
...-...-...s.s.s....
...-...-.....-......
...o...-.....-....o-
.......-.....-....-.
.......o-----o....-.
..................-.
...o-----------o..-.
...-...........-..-.
...-...........----.
...o................
""",
    ),
    # A skyline at night.
    "skyline": (
        {
            ".": (30, 36, 70),
            "*": (240, 240, 210),
            "a": (64, 72, 104),
            "w": (250, 210, 110),
            "b": (96, 66, 80),
            "o": (240, 180, 90),
        },
        """
........................
...*..............*.....
........................
...........aaaaa........
...........aaaaa...*....
..*........awawa........
...aaaaa...aaaaa........
...aaaaa...awawa..bbbbb.
...awawa...aaaaa..bobob.
...aaaaa...awawa..bbbbb.
...awawa...aaaaa..bobob.
...aaaaabbbbbaaa..bbbbb.
...awawabobobawa..bobob.
...aaaaabbbbbaaa..bbbbb.
...awawabobobawa..bobob.
...aaaaabbbbbaaa..bbbbb.
...awawabobobawa..bobob.
""",
    ),
    # A platform level with ladders.
    "platforms": (
        {
            ".": (150, 200, 240),
            "#": (110, 78, 50),
            "=": (90, 160, 70),
            "H": (196, 150, 84),
            "o": (250, 210, 70),
            "c": (240, 246, 252),
        },
        """
........................
...ccc..........cc......
....cc.........ccc......
........................
......o.o.o.............
.....=H=====........o...
......H...........==H===
......H.............H...
......H....o.o......H...
..====H===H====.....H...
..........H.........H...
..........H.....====H===
..o.......H.........H...
.===H=====H===......H...
....H..........o.o..H...
....H.......====H===H===
....H...........H.......
....H...........H.......
========================
########################
########################
""",
    ),
}


def ppm(colours, text):
    """The bytes of a picture."""
    rows = text.split()
    pixels = b"".join(bytes(colours[symbol]) for row in rows for symbol in row)
    return b"P6\n%d %d\n255\n" % (len(rows[0]), len(rows)) + pixels


if __name__ == "__main__":
    for name, (colours, text) in PICTURES.items():
        pathlib.Path(__file__).with_name(name + ".ppm").write_bytes(ppm(colours, text))
