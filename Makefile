# make demo       shows the driver at work on simulated panels; PANELS="1.44 2" picks some
# make test       proves everything from nothing, then runs every test on what was proved (the gate)
# make tests      the tests outside Rattle alone
# make bench      compares with plain C, and writes docs/BENCHMARKS.md
# make layout     draws a layout's leaves as outlines; LIST="01 00" draws another list of boxes
# make ghosting   simulates a season of trainees' mistakes, and writes docs/GHOSTING.md
# make gate-costs measures what the proofs of the gate cost, crate by crate, and writes docs/GATE.md
.PHONY: demo demo-finish layout test tests test-c test-programs test-store build libraries bench ghosting gate-costs clean

SHELL = /bin/bash
CFLAGS = -std=c99 -O2 -Wall -Wextra -pedantic
LIBRARY = target/staticlib/libstart_board.a
OUT = target/tests
PYTHON = python3 -B

demo:
	@$(PYTHON) -m demo.board --only-arguments $(PANELS)
	@mkdir -p target
	@echo "Proving and building the programs (some minutes the first time) ..."
	@tools/build.sh settings_list replay >target/demo.log 2>&1 || { cat target/demo.log; exit 1; }
	@$(PYTHON) -m demo.board $(PANELS)
	@$(if $(PANELS),,$(MAKE) --no-print-directory demo-finish)

# The finish arch panels alone.
demo-finish:
	@mkdir -p target/demo
	@tools/build.sh start_board >target/demo.log 2>&1 || { cat target/demo.log; exit 1; }
	@$(CC) $(CFLAGS) -Iinclude -o target/demo/finish_things demo/finish_things.c $(LIBRARY)
	@$(PYTHON) -m demo.finish

layout:
	tools/build.sh layout_list
	@$(PYTHON) -m demo.layout $(LIST)

test:
	@.ci/run

# What the tests run: the programs and the static libraries. Only proved crates are built, and what is proved already is not proved again.
build:
	tools/build.sh start_board update_loop by_dots settings_list bitmap_normal bitmap_mend layout_list replay

libraries:
	tools/build.sh start_board update_loop by_dots

# Two groups at a time; what a group prints stays together.
tests: build
	@mkdir -p $(OUT)
	@$(MAKE) --no-print-directory --jobs=2 --output-sync=target test-store test-programs test-c

# The calls for C, and the update loop.
test-c:
	@echo "== the three C calls against an independent implementation"
	$(CC) $(CFLAGS) -Iinclude -o $(OUT)/calls tests/calls/compare.c tests/calls/reference.c $(LIBRARY)
	$(OUT)/calls
	@echo "== the C example"
	$(CC) $(CFLAGS) -Iinclude -o $(OUT)/firmware examples/firmware.c $(LIBRARY)
	$(OUT)/firmware | diff tests/calls/example.expected -
	@echo "== the finish panels' two C calls against an independent implementation"
	$(CC) $(CFLAGS) -Iinclude -o $(OUT)/finish tests/finish/compare.c tests/finish/reference.c $(LIBRARY)
	$(OUT)/finish
	@echo "== the C example of a finish panel"
	$(CC) $(CFLAGS) -Iinclude -o $(OUT)/finish_example examples/finish.c $(LIBRARY)
	$(OUT)/finish_example | diff tests/finish/example.expected -
	@echo "== the hall display's C calls against an independent implementation"
	$(CC) $(CFLAGS) -Iinclude -o $(OUT)/hall tests/hall/compare.c tests/hall/reference.c tests/hall/printed.c $(LIBRARY)
	$(OUT)/hall
	@echo "== the C example of the hall display"
	$(CC) $(CFLAGS) -Iinclude -o $(OUT)/hall_example examples/hall.c $(LIBRARY)
	$(OUT)/hall_example | diff tests/hall/example.expected -
	@echo "== whole updates of the update loop and regions against plain C"
	$(PYTHON) -m bench.run --compare
	@echo "== whole updates of the update loop in a stack of 11,500 bytes"
	$(CC) $(CFLAGS) -Ibench -o $(OUT)/stack tests/loop/stack.c target/staticlib/libupdate_loop.a
	$(OUT)/stack target/bench/settings_1.44 tests/bitmaps/panel_1_44.netpbm.bmp target/bench/settings_2 tests/bitmaps/panel_2_0.netpbm.bmp \
	    target/bench/settings_2.7 tests/bitmaps/panel_2_7.netpbm.bmp

# The programs, but for `replay`.
test-programs:
	@echo "== the listing program against an independent implementation"
	$(PYTHON) -m tests.listing.compare target/bin/settings_list
	@echo "== bitmaps made by other tools, and damaged ones"
	$(PYTHON) -m tests.bitmaps.compare target/bin/bitmap_normal
	@echo "== damaged bitmaps mended, by the C call and by the program, against an independent implementation"
	$(CC) $(CFLAGS) -Iinclude -o $(OUT)/mending tests/mending/compare.c tests/mending/reference.c $(LIBRARY)
	$(OUT)/mending tests/bitmaps/*.bmp
	$(CC) $(CFLAGS) -o $(OUT)/mend_report tests/mending/report.c tests/mending/reference.c
	$(PYTHON) -m tests.mending.compare target/bin/bitmap_mend $(OUT)/mend_report
	@echo "== layouts against an independent implementation, every dot counted"
	$(PYTHON) -m tests.layout.compare target/bin/layout_list

# The store, through `replay`, and what the documents show of it.
test-store:
	@echo "== every public call on the store has a place in demand 3"
	$(PYTHON) tests/chain/calls.py
	@echo "== the independent implementation by itself: bitmaps by chunks against whole uploads, summaries dot by dot"
	$(PYTHON) -m tests.replay.whole
	@echo "== random scripts of calls against an independent implementation, with the sums read from the bytes handed out"
	$(PYTHON) -m tests.replay.compare target/bin/replay
	@echo "== the gate's script, where proofs or tests fail"
	$(PYTHON) -m tests.gate
	@echo "== the picture of the crates, the crates and edits of GATE.md, the examples of FORMATS.md and the figures of GHOSTING.md"
	$(PYTHON) docs/crates.py --check
	$(PYTHON) -m bench.gate --check
	$(PYTHON) -m tests.formats
	$(PYTHON) -m ghosting.season --check

bench: libraries
	$(PYTHON) -m bench.run

ghosting:
	tools/build.sh replay
	$(PYTHON) -m ghosting.season

gate-costs:
	$(PYTHON) -m bench.gate

clean:
	rm -rf target crates/*/out
