"""The smallest sheet of each difference that is a browser's own, as docs/DIFFERENCES.md gives them."""
from differences import repeat
from cell_edges import cell
from edges import TRACK, axis_line, place_line

ONE = "len\t3f800000\tlen\t3f800000"

SHEETS = {
    "Chromium shares out space in 1/64 px": [axis_line("41200000")] + repeat(12, "len\t00000000\tlen\t42480000"),
    "Chromium cuts a quotient to 1/64 before it rounds it up":
        ["axis\tc\t42c88000\tmin\tlen\t00000000"] + repeat("fill", "len\t42c80000\tlen\t42c80000"),
    "Chromium cuts lengths to 1/64 px": [axis_line("40000000")] + repeat("fill", "len\t3f8147ae\tlen\t3f8147ae"),
    "Chromium passes over free rows": [f"track\tc\t{TRACK}"] * 3 + [cell("3", "1"), cell("3", "2"), cell("1", "1 / 4"), cell("span 2")],
    "Firefox rounds lengths to 1/60 px": [axis_line("400a0000")] + repeat("fill", "len\t3f8a0000\tlen\t3f8a0000"),
    "Firefox counts back from before an area's edge past the template":
        ["area\ta\t1\t2\t1\t2", place_line("named\ta-end\t-1")],
    "Firefox holds numbers and lines to 10,000": [place_line("line\t-\t10000")],
    "Firefox holds repetitions to 10,000 tracks": [axis_line("461c4000")] + repeat("fit", ONE),
    "Firefox holds the explicit count to 10,000": [axis_line("461c4000")] + repeat("fit", ONE),
}
