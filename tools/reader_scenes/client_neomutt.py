"""neomutt in a terminal, by the keys and settings of mutt's scene."""
import client_mutt

PACKAGE, PROGRAMS, LACKS = "neomutt", ("neomutt", "tmux"), ()


def play(scene):
    client_mutt.play(scene, "neomutt")
