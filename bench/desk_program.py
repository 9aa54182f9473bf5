"""Builds the program of bench/desk, in some six minutes, and leaves it as bench/desk/out/desk_bench."""
import built

NAME = "desk_bench"
SOURCES = f"{built.BENCH}/desk"
STANDS_ON = ["hall_grid", "hall_policy", "hall_store", "hall_desk", "hall_http"]


def build():
    """Builds the program, and tells where it is."""
    return built.build(NAME, SOURCES, STANDS_ON)
