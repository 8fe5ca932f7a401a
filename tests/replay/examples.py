"""Fixed scripts. Their answers were typed from the rules; they come neither from the program nor from the reference."""
from simulator.panel import Glass
from tests.panels import PANELS
from tests.replay.script import Script

FILE = "01 00 02 57 01 00 00 00 00 00 0F FF 00 57 04 03 01 44 00 0F".replace(" ", "")  # 1.44 inch, a wait of 15 ms to stop
FILE_2 = "01 01 02 57 01 00 00 00 00 01 FF E0 00 57 04 03 00".replace(" ", "")          # 2 inch, no stop steps
START_WRITES = ("0 write 70017200000000000FFF00", "0 write 70047203")
ROWS, FRAMES = 96, 64  # of the 1.44 inch panel, and of its run
LINE = "0 line *"


def poll(script, tick, typed):
    script.expect(f"poll {tick % 2 ** 32}", typed)


def start(script, tick, slot=1):
    """A start, and its writes at the same moment."""
    script.expect(f"start {slot} {tick}", "0")
    for typed in START_WRITES:
        poll(script, tick, typed)


def frame(script, tick, first_line=LINE):
    """All lines of a frame at one moment."""
    for typed in (first_line, *[LINE] * (ROWS - 1)):
        poll(script, tick, typed)


def frames(script, tick, first_lines):
    """All frames of a run, each when it is due. first_lines has the first line of some frames."""
    for number in range(FRAMES):
        frame(script, tick + 30 * number, first_lines.get(number, LINE))


def whole_run(script, tick, first_lines):
    start(script, tick)
    frames(script, tick, first_lines)
    poll(script, tick + 1935, "0 done")


def line_0(even, odd, others):
    """The line of row 0: the first eight dots' bytes, and the byte of all others."""
    return "0 line 700A72" + even + others * 15 + "C0" + "00" * 23 + others * 15 + odd + "7002722F"


def dot_codes(script):
    """A row that begins with the dots B4 and is white after them: once as the new picture, then as both."""
    script.expect(f"open 1 {FILE}", "0")
    script.expect("region 1 0 0 8 1 B4", "0")
    new = {32: line_0("F0", "3C", "FF"), 48: line_0("AF", "EB", "AA")}
    whole_run(script, 0, {0: line_0("FF", "FF", "FF"), 16: line_0("AA", "AA", "AA"), **new})
    whole_run(script, 7, {0: line_0("FA", "BE", "FF"), 16: line_0("A0", "28", "AA"), **new})


def net_pushes(script):
    """Four dots that stay white, stay black, go to white and go to black: one line of each stage."""
    script.expect(f"open 1 {FILE}", "0")
    script.expect("region 1 0 0 4 1 90", "0")
    whole_run(script, 0, {})
    script.expect("region 1 0 0 4 1 A0", "0")
    stages = line_0("EF", "FE", "FF"), line_0("8A", "A8", "AA"), line_0("FF", "F0", "FF"), line_0("AA", "AF", "AA")
    whole_run(script, 0, dict(zip((0, 16, 32, 48), stages)))
    glass = Glass(PANELS[0])
    for line in stages:
        glass.send(bytes.fromhex(line.split(" ")[2]))
    script.facts.append(("net pushes over four one-frame stages", glass.sums[0][:4], [0, 0, 1, -1]))


def scan_bytes(script):
    """One mark in each line, and none left from the row before. The shown picture is not the new one before done."""
    script.expect(f"open 1 {FILE}", "0")
    script.expect("region 1 0 0 128 96 " + "00" * 1536, "0")
    start(script, 0)
    marks = ["C0", "30", "0C", "03", "00C0", "0030", "000C", "0003"] + [None] * 87 + ["00" * 23 + "03"]
    for mark in marks:
        scan = mark and mark + "00" * (24 - len(mark) // 2)
        poll(script, 0, "0 line 700A72" + "FF" * 16 + scan + "FF" * 16 + "7002722F" if mark else LINE)
    script.expect("write 0", bitmap_file("FF" * 16))


# the header of the writer's file of a 1.44 inch picture
BITMAP_HEADER = ("424D 3E060000 00000000 3E000000 28000000 80000000 60000000 0100 0100 00000000 00060000"
                 "00000000 00000000 00000000 00000000 00000000 FFFFFF00").replace(" ", "")
WHITE_ROW = "FF" * 16


def bitmap_file(top_row, bottom_row=WHITE_ROW):
    """The writer's file of a 1.44 inch picture that is white between its top and bottom row."""
    return "0 " + BITMAP_HEADER + bottom_row + WHITE_ROW * 94 + top_row


def regions(script):
    for text, typed in (
            (f"open 3 {FILE}", "0"),
            ("region 1 3 0 2 1 00", "0"), ("write 1", bitmap_file("E7" + "FF" * 15)),
            ("region 2 7 0 2 1 00", "0"), ("write 2", bitmap_file("FE7F" + "FF" * 14)),
            ("write 0", bitmap_file("FF" * 16)), ("write 3", bitmap_file("FF" * 16)),
            ("region 3 0 0 2 1 20", "6"), ("region 3 0 0 2 1 C0", "0"), ("write 3", bitmap_file("FF" * 16)),
            ("region 3 1 0 4294967295 1 80", "5"), ("region 3 4294967295 0 1 1 80", "5"),
            ("region 3 0 1 1 4294967295 80", "5"),
            (f"open 1 {FILE_2}", "0"), ("region 1 199 0 1 1 00", "0"), ("region 1 200 0 1 1 00", "5")):
        script.expect(text, typed)


def palettes(script):
    """A picture of one row that is not white, sent with black first and with white first; then other palettes."""
    written = bitmap_file("E7" + "FF" * 15)
    black_first = written[2:]
    header = BITMAP_HEADER[:108]
    white_first = header + "FFFFFF00 00000000".replace(" ", "") + "00" * 16 * 95 + "18" + "00" * 15
    free = header + "FFFFFFA5 0000005A".replace(" ", "") + white_first[124:]
    script.expect(f"open 3 {FILE}", "0")
    for slot, file in ((1, black_first), (2, white_first), (3, free)):
        script.expect(f"bitmap {slot} {file}", "0")
        script.expect(f"write {slot}", written)
    for colours in ("00000000 00000000", "FFFFFF00 FFFFFF00", "00000000 FEFFFF00", "FFFFFF00 00000100", "FFFF0000 00000000",
                    "000000FF FFFF0000", "00FFFFFF 00000000"):
        script.expect(f"bitmap 2 {header}{colours.replace(' ', '')}{white_first[124:]}", "4")
    script.expect("write 2", written)


def fill(script):
    """A file by chunks: a row is there with the last byte of its stride, the bottom row first. Until then the slot is as it was."""
    before = bitmap_file("E7" + "FF" * 15)
    for text, typed in (
            (f"open 2 {FILE}", "0"), ("region 1 3 0 2 1 00", "0"), ("begin 1", "0"), ("write 1", before),
            ("chunk " + BITMAP_HEADER[:10], "0"), ("chunk -", "0"), ("chunk " + BITMAP_HEADER[10:124], "0"), ("write 1", before),
            ("chunk " + "00" * 15, "0"), ("write 1", before), ("chunk 7E", "0"),
            ("write 1", bitmap_file("E7" + "FF" * 15, "00" * 15 + "7E")), ("write 2", bitmap_file(WHITE_ROW)),
            ("chunk " + WHITE_ROW * 94 + "81" * 15, "0"), ("write 1", bitmap_file("E7" + "FF" * 15, "00" * 15 + "7E")),
            ("chunk 42", "0"), ("write 1", bitmap_file("81" * 15 + "42", "00" * 15 + "7E")), ("chunk -", "0"), ("finish", "0"),
            ("write 1", bitmap_file("81" * 15 + "42", "00" * 15 + "7E")), ("finish", "17"), ("chunk -", "17"), ("cancel", "17")):
        script.expect(text, typed)


def fill_with_white_first(script):
    """Each dot is turned over, also where the header comes by single bytes."""
    header = BITMAP_HEADER[:108] + "FFFFFF5A 000000A5".replace(" ", "")
    script.expect(f"open 1 {FILE}", "0")
    script.expect("begin 1", "0")
    for at in range(0, 124, 2):
        script.expect("chunk " + header[at:at + 2], "0")
    script.expect("chunk " + "01" * 16 + "00" * 16 * 94, "0")
    script.expect("chunk " + "18" * 16, "0")
    script.expect("finish", "0")
    script.expect("write 1", bitmap_file("E7" * 16, "FE" * 16))


def fill_with_padding(script):
    """A row of the 2 inch panel has three bytes of padding, which may be anything; with the last of them it is there."""
    header = ("424D BE0A0000 00000000 3E000000 28000000 C8000000 60000000 0100 0100 00000000 800A0000"
              "00000000 00000000 00000000 00000000 00000000 FFFFFF00").replace(" ", "")
    white, black = "FF" * 25 + "000000", "00" * 25 + "000000"
    for text, typed in (
            (f"open 1 {FILE_2}", "0"), ("begin 1", "0"), ("chunk " + header, "0"), ("chunk " + "00" * 25 + "A5", "0"),
            ("write 1", "0 " + header + white * 96), ("chunk A5", "0"), ("write 1", "0 " + header + white * 96), ("chunk A5", "0"),
            ("write 1", "0 " + header + black + white * 95), ("chunk " + "00" * 25 + "A5A5", "0"),
            ("write 1", "0 " + header + black + white * 95), ("chunk A5" + "00" * 5, "0"),
            ("write 1", "0 " + header + black * 2 + white * 94), ("chunk " + "FF" * (94 * 28 - 6), "0"),
            ("finish", "4"), ("write 1", "0 " + header + white * 96),
            ("begin 1", "0"), ("chunk " + header[:68], "0"), ("chunk 80", "0"), ("chunk 0A", "0"), ("chunk 0000", "0"), ("cancel", "0"),
            ("begin 1", "0"), ("chunk " + header[:68], "0"), ("chunk 00", "0"), ("chunk 00", "0"), ("chunk 0000", "0"), ("cancel", "0"),
            ("begin 1", "0"), ("chunk " + header[:68], "0"), ("chunk 80", "0"), ("chunk 00", "4"),  # neither of the two at 34
            ("begin 1", "0"), ("chunk " + header[:68], "0"), ("chunk 00", "0"), ("chunk 0A", "4")):
        script.expect(text, typed)


def refused_fills(script):
    """What ends a fill leaves its slot white and the others as they are; then no fill is begun."""
    white, black = bitmap_file(WHITE_ROW), "0 " + BITMAP_HEADER + "00" * 1536
    header, rows = BITMAP_HEADER, "00" * 1536
    script.expect(f"open 2 {FILE}", "0")
    script.expect("region 2 0 0 128 96 " + rows, "0")
    for *taken, (last, number) in (
            [("43", "4")], [("42", "0"), ("4E", "4")], [("424D3E06", "0"), ("0000", "0"), ("01", "4")],
            [(header[:68], "0"), ("00", "0"), ("0006", "4")],           # 00 06 00 00 or zeros at 34
            [(header[:68], "0"), ("0006", "0"), ("00", "0"), ("01", "4")],
            [(header[:92], "0"), ("02", "0"), ("02", "4")],             # 0 or 2 at 46
            [(header[:108], "0"), ("00", "0"), ("FF", "4")],            # neither black nor white
            [(header[:108], "0"), ("FFFFFF77", "0"), ("FF", "4")],      # white twice
            [(header[:108], "0"), ("00000077", "0"), ("FFFF", "0"), ("FE", "4")],
            [(header + rows, "0"), ("00", "4")], [(header + rows + "00", "4")], [(header + rows[2:], "0"), ("0000", "4")]):
        script.expect("region 1 0 0 128 96 " + rows, "0")
        script.expect("begin 1", "0")
        for piece, typed in (*taken, (last, number)):
            script.expect("chunk " + piece, typed)
        for text, typed in (("write 1", white), ("write 2", black), ("chunk -", "17"), ("finish", "17"), ("cancel", "17")):
            script.expect(text, typed)
    for came in ((), ("-",), ("42",), (header,), (header, rows[2:]), (header + rows[2:],)):
        for end, typed in (("finish", "4"), ("cancel", "0")):
            script.expect("region 1 0 0 128 96 " + rows, "0")
            for text in ("begin 1", *("chunk " + piece for piece in came)):
                script.expect(text, "0")
            for text, number in ((end, typed), ("write 1", white), ("write 2", black), ("finish", "17")):
                script.expect(text, number)


def fill_orders(script):
    """The numbers of fills, and of other calls while a slot is filled, with several faults at once."""
    none_begun = ("chunk 00", "17"), ("chunk -", "17"), ("finish", "17"), ("cancel", "17")
    faulty = "begin 0", "begin 1", "begin 2", "chunk 00", "finish", "cancel", "bitmap 2 -", "region 2 0 0 0 0 -", "start 2 0"
    wrong_memory = ("lend 4607", "0"), *((text, "1") for text in faulty), ("lend 6144", "0")
    on_filled = ("begin 2", "15"), ("bitmap 2 -", "15"), ("region 2 0 0 0 0 -", "15"), ("write 2", bitmap_file(WHITE_ROW))
    for text, typed in (
            ("begin 0", "13"), ("chunk 00", "13"), ("finish", "13"), ("cancel", "13"), (f"open 3 {FILE}", "0"),
            *none_begun, *wrong_memory, ("begin 0", "3"), ("begin 4", "3"), *none_begun,
            ("begin 2", "0"), *wrong_memory, *on_filled, ("start 2 0", "15"), ("begin 0", "3"), ("begin 4", "3"), ("begin 1", "16"),
            ("begin 3", "16"), ("start 0 0", "3"), ("start 4 0", "3"), ("region 1 0 0 1 1 00", "0"), ("bitmap 3 -", "4"),
            ("start 1 0", "0"), *wrong_memory, *on_filled, ("start 2 0", "8"), ("begin 1", "7"), ("begin 3", "16"), ("bitmap 1 -", "7"),
            ("poll 0", START_WRITES[0]), ("chunk 424D", "0"), ("poll 0", START_WRITES[1]), ("abandon", "0"),
            ("start 2 0", "12"), *on_filled, ("begin 1", "16"), ("region 1 0 0 1 1 00", "0"), ("chunk 3E", "0"), ("cancel", "0"),
            *none_begun, ("begin 1", "0"), ("begin 1", "15"), ("begin 2", "16"), (f"open 3 {FILE}", "0"), *none_begun,
            ("begin 1", "0"), ("open 0 00", "2"), ("chunk 00", "13"), ("cancel", "13"), (f"open 3 {FILE}", "0"), *none_begun):
        script.expect(text, typed)


def summaries(script):
    """The black dots of a slot and the first and last row with one, after each kind of call that writes it; a refusal leaves them."""
    black = "00" * 1536
    for text, typed in (
            ("summary 0", "13"), ("summary 9", "13"), (f"open 2 {FILE}", "0"), *((f"summary {slot}", "0 0 none") for slot in (0, 1, 2)),
            ("summary 3", "3"), ("summary 8", "3"), ("summary 256", "3"), ("summary 4294967295", "3"),
            ("region 1 0 0 1 1 00", "0"), ("summary 1", "0 1 0 0"), ("region 1 127 95 1 1 00", "0"), ("summary 1", "0 2 0 95"),
            ("region 1 127 95 1 1 00", "0"), ("summary 1", "0 2 0 95"), ("region 1 0 0 1 1 80", "0"), ("summary 1", "0 1 95 95"),
            ("region 1 127 95 1 1 80", "0"), ("summary 1", "0 0 none"), ("region 1 3 7 2 1 00", "0"), ("summary 1", "0 2 7 7"),
            ("region 2 6 10 11 2 0000AAA0", "0"), ("summary 2", "0 16 10 11"), ("summary 1", "0 2 7 7"), ("summary 0", "0 0 none"),
            ("region 2 0 0 2 1 20", "6"), ("region 2 127 0 2 1 00", "5"), ("bitmap 2 424D", "4"), ("summary 2", "0 16 10 11"),
            ("lend 0", "0"), ("summary 2", "0 16 10 11"), ("summary 3", "3"), ("region 2 0 0 1 1 00", "1"), ("lend 4608", "0"),
            ("summary 2", "0 16 10 11"),
            (f"region 1 0 0 128 96 {black}", "0"), ("summary 1", "0 12288 0 95"), ("region 1 0 0 128 40 " + "FF" * 640, "0"),
            ("summary 1", "0 7168 40 95"), ("bitmap 1 " + BITMAP_HEADER + "FF" * 1535 + "A5", "0"), ("summary 1", "0 4 0 0"),
            ("bitmap 1 " + BITMAP_HEADER + "7E" + "FF" * 1535, "0"), ("summary 1", "0 2 95 95"),
            ("bitmap 1 " + BITMAP_HEADER[:108] + "FFFFFF00 00000000".replace(" ", "") + "00" * 1520 + "18" + "00" * 15, "0"),
            ("summary 1", "0 2 0 0")):
        script.expect(text, typed)


def summaries_of_fills(script):
    """A fill changes the summary with the last byte of a row's stride, its 4 and a cancel leave 0 and none, a finish the count."""
    for text, typed in (
            (f"open 1 {FILE}", "0"), ("region 1 6 10 11 2 0000AAA0", "0"), ("begin 1", "0"), ("summary 1", "0 16 10 11"),
            ("chunk " + BITMAP_HEADER, "0"), ("summary 1", "0 16 10 11"), ("chunk " + "00" * 15, "0"), ("summary 1", "0 16 10 11"),
            ("chunk -", "0"), ("summary 1", "0 16 10 11"), ("chunk 7E", "0"), ("summary 1", "0 138 10 95"),
            ("chunk " + WHITE_ROW * 84 + "00", "0"), ("summary 1", "0 133 10 95"), ("chunk " + "FF" * 15, "0"),
            ("summary 1", "0 130 10 95"), ("summary 0", "0 0 none"), ("chunk " + WHITE_ROW * 10, "0"), ("summary 1", "0 130 10 95"),
            ("finish", "0"), ("summary 1", "0 130 10 95"), ("finish", "17"), ("summary 1", "0 130 10 95"),
            ("begin 1", "0"), ("chunk 424D3E07", "4"), ("summary 1", "0 0 none"), ("region 1 0 0 1 1 00", "0"), ("begin 1", "0"),
            ("chunk " + BITMAP_HEADER + "00" * 16, "0"), ("summary 1", "0 129 0 95"), ("finish", "4"), ("summary 1", "0 0 none"),
            ("begin 1", "0"), ("chunk " + BITMAP_HEADER + "00" * 16, "0"), ("summary 1", "0 128 95 95"), ("cancel", "0"),
            ("summary 1", "0 0 none"), ("cancel", "17"), ("summary 1", "0 0 none"),
            (f"open 1 {FILE_2}", "0"), ("region 1 0 0 200 96 " + "00" * 2400, "0"), ("summary 1", "0 19200 0 95"),
            (f"open 2 {FILE_2}", "0"), ("summary 1", "0 0 none"), ("region 1 199 5 1 1 00", "0"), ("open 0 00", "2"), ("summary 1", "13"),
            ("summary 0", "13")):
        script.expect(text, typed)


def summary_of_the_shown(script):
    """Done copies the summary of the run's slot to slot 0: not the start, and not an abandon."""
    script.expect(f"open 2 {FILE}", "0")
    script.expect("region 1 6 10 11 2 0000AAA0", "0")
    start(script, 0)
    script.expect("summary 0", "0 0 none")
    frames(script, 0, {})
    script.expect("region 2 0 0 128 1 " + "00" * 16, "0")
    script.expect("summary 0", "0 0 none")
    poll(script, 1935, "0 done")
    for text, typed in (("summary 0", "0 16 10 11"), ("summary 1", "0 16 10 11"), ("summary 2", "0 128 0 0"),
                        ("region 1 0 0 1 1 00", "0"), ("summary 1", "0 17 0 11"), ("summary 0", "0 16 10 11"),
                        ("start 2 0", "0"), ("abandon", "0"), ("summary 0", "0 16 10 11"), ("summary 2", "0 128 0 0")):
        script.expect(text, typed)


def steps(script):
    script.expect(f"open 1 {FILE}", "0")
    start(script, 4294967290)
    frame(script, 4294967290)
    poll(script, 23, "0 wait 1")
    poll(script, 24, LINE)
    script.expect(f"open 1 {FILE}", "0")
    script.expect("start 1 5", "0")
    poll(script, 5 + 2147483647, START_WRITES[0])
    poll(script, 5 + 2147483647 + 2147483648, "10")
    poll(script, 5 + 2147483647, START_WRITES[1])


FIRST = 4294967290  # F in the examples of the clock


def late_frame(script):
    script.expect(f"open 1 {FILE}", "0")
    start(script, FIRST)
    for _ in range(ROWS - 1):
        poll(script, FIRST, LINE)
    poll(script, 40, LINE)
    frame(script, 40)
    poll(script, 40, "0 wait 14")
    poll(script, 53, "0 wait 1")
    poll(script, 54, LINE)


def early_poll(script):
    script.expect(f"open 1 {FILE}", "0")
    start(script, FIRST)
    frame(script, FIRST)
    poll(script, 10, "0 wait 14")


def end_in_time(script):
    """The last line is out by F + 1,920."""
    script.expect(f"open 1 {FILE}", "0")
    start(script, FIRST)
    frames(script, FIRST, {})
    for passed, typed in ((1890, "0 wait 45"), (1920, "0 wait 15"), (1934, "0 wait 1"), (1935, "0 done")):
        poll(script, FIRST + passed, typed)


def end_late(script):
    """The last line goes at F + 2,000."""
    script.expect(f"open 1 {FILE}", "0")
    start(script, FIRST)
    for number in range(FRAMES - 1):
        frame(script, FIRST + 30 * number)
    for _ in range(ROWS - 1):
        poll(script, FIRST + 1890, LINE)
    for passed, typed in ((2000, LINE), (2000, "0 wait 15"), (2014, "0 wait 1"), (2015, "0 done")):
        poll(script, FIRST + passed, typed)


def orders(script):
    """Calls with several faults at once: the first number of each call's order is given."""
    faulty = "region 9 0 0 0 0 -", "bitmap 0 -", "start 0 0", "poll 0 0", "abandon", "write 9 0"
    for text, typed in (
            ("lend 5", "0"), *((call, "13") for call in faulty),
            ("open 0 00 5", "2"), (f"open 0 {FILE}", "1"), (f"open 8 {FILE}", "1"), (f"open 1 {FILE} 3071", "1"),
            *((call, "13") for call in faulty), (f"open 2 {FILE} 4608", "0"),
            ("lend 4607", "0"), *((call, "1") for call in faulty), ("lend 4608", "0"),
            ("region 0 0 0 0 0 -", "3"), ("region 3 0 0 0 0 -", "3"), ("region 1 0 0 0 0 -", "5"), ("region 1 1 0 128 1 -", "5"),
            ("region 1 0 0 1 1 -", "6"), ("region 1 0 0 1 1 40", "6"), ("region 1 0 0 1 1 8080", "6"),
            ("bitmap 0 -", "3"), ("bitmap 3 -", "3"), ("bitmap 1 -", "4"), ("poll 0 0", "9"), ("abandon", "9"),
            ("start 0 0", "3"), ("start 3 0", "3"),
            ("write 3 0", "3"), ("write 2 1597", "11"), ("write 2 1598", bitmap_file("FF" * 16)),
            ("start 1 100", "0"), ("start 0 0", "8"),
            ("lend 4607", "0"), *((call, "1") for call in faulty), ("lend 4608", "0"),
            ("region 1 0 0 0 0 -", "7"), ("bitmap 1 -", "7"), ("region 2 0 0 1 1 00", "0"), ("region 3 0 0 1 1 00", "3"),
            ("poll 99 116", "11"), ("poll 99", "10"), ("poll 100 116", "11"), ("poll 100 117", START_WRITES[0]),
            ("abandon", "0"), ("abandon", "9"), ("poll 99 0", "9"),
            ("start 0 0", "12"), ("start 3 0", "12"), ("start 1 0", "12"),
            ("region 1 0 0 0 0 -", "5"), ("region 1 0 0 1 1 00", "0"), ("bitmap 1 -", "4"), ("write 3 0", "3"),
            ("open 0 00", "2"), *((call, "13") for call in faulty), (f"open 2 {FILE}", "0"), ("start 1 0", "0"),
            (f"open 1 {FILE} 4608", "1"), ("poll 0", "13"),
            (f"open 1 {FILE}", "0"), ("poll 0", "9"), ("start 1 0", "0")):
        script.expect(text, typed)


def fixed_scripts():
    for make in (dot_codes, net_pushes, scan_bytes, regions, palettes, fill, fill_with_white_first, fill_with_padding, refused_fills,
                 fill_orders, summaries, summaries_of_fills, summary_of_the_shown, steps, early_poll, late_frame, end_in_time, end_late,
                 orders):
        script = Script(make.__name__)
        make(script)
        yield script
