#!/usr/bin/env python3
"""Writes the stored runs of this folder: NAME.run, the bytes of a run file, and NAME.out, what runlist must print for it.

Every expected line is worked from the rules by hand and spelt out here; nothing is simulated and nothing is taken from a program. The gate
does not run this script: it compares the stored files. Run it after a change, from any folder: python3 tests/runs/make.py
"""
import os
import struct

HERE = os.path.dirname(os.path.abspath(__file__))
LINES = []


def run_file(m, M, bits, pushes, pops, data, schedule):
    head = bytes([m]) + struct.pack("<I", M) + bytes([bits, len(pushes), len(pops)])
    return head + bytes(pushes) + bytes(pops) + bytes(data) + b"".join(bytes(e) for e in schedule)


def write(name, why, content, lines):
    with open(os.path.join(HERE, name + ".run"), "wb") as f:
        f.write(content)
    with open(os.path.join(HERE, name + ".out"), "w") as f:
        f.write("".join(line + "\n" for line in lines))
    LINES.append(f"| `{name}` | {why} |")


def row(numbers):
    return " ".join(str(n) for n in numbers)


# A run that is played. `report` has the first ten numbers; `short` the two after them, the largest shortfall of a failed push and of a failed pop:
# a failed batch's size less the room by the index that its foreign load read.
def lawful(name, why, content, report, marks, out, short=(0, 0)):
    write(name, why, content, ["code 0", row(report + list(short)), row(marks), row(out)])


def refused(name, why, content, code):
    write(name, why, content, [f"code {code}"])


def P(n=1, age=0):
    return [(0, age)] * n


def C(n=1, age=0):
    return [(1, age)] * n


# The runs worked by hand: m = 1, M = 2.
def hand(name, why, bits, pushes, pops, schedule, marks, report, out, short=(0, 0)):
    data = [65, 66][: sum(pushes)]
    lawful(name, why, run_file(1, 2, bits, pushes, pops, data, schedule), report, marks, out, short)


hand("r1", "one byte through the ring, strong orders", 15, [1], [1], P(3) + C(4),
     [1, 4, 6, 1, 2, 5, 6], [7, 0, 1, 1, 1, 0, 0, 0, 0, 0], [65])
hand("r2", "back's store relaxed: the data load races with the data store", 13, [1], [1], P(3) + C(4),
     [1, 4, 6, 1, 2, 7, 130], [6, 1, 1, 0, 0, 1, 0, 0, 6, 2], [])
hand("r3", "a load of the initial store: the pop fails", 15, [1], [1], P(3) + C() + C(1, 1),
     [1, 4, 6, 1, 3], [5, 0, 1, 0, 0, 1, 0, 1, 0, 0], [], short=(0, 1))
hand("r4", "the same store is hidden once a newer one was read", 15, [1], [1, 1], P(3) + C(5) + C(1, 1) + C(),
     [1, 4, 6, 1, 2, 5, 6, 1, 134, 3], [9, 1, 1, 1, 1, 0, 0, 1, 0, 0], [65], short=(0, 1))
hand("r5", "front's load relaxed: the second lap's store races with the load before it", 14, [1, 1], [1], P(3) + C(4) + P(3),
     [1, 4, 6, 1, 2, 5, 6, 1, 2, 7], [10, 0, 1, 1, 1, 0, 0, 0, 10, 6], [65])
hand("r6", "the indexes wrap", 15, [1, 1], [1, 1], P(3) + C(4) + P(4) + C(4),
     [1, 4, 6, 1, 2, 5, 6, 1, 2, 4, 6, 1, 2, 5, 6], [15, 0, 2, 2, 2, 0, 0, 0, 0, 0], [65, 66])
hand("r7", "a batch above m fails", 15, [2], [], P(2), [1, 3], [2, 0, 0, 0, 0, 0, 1, 0, 0, 0], [], short=(1, 0))
hand("r8", "batches of 0 store their index again", 15, [0], [0], P(2) + C(2), [1, 6, 1, 6], [4, 0, 0, 0, 0, 0, 0, 0, 0, 0], [])
hand("r9", "each refusal but 130 and 134", 15, [2], [], P(1, 1) + P() + P(1, 1) + P() + P() + [(2, 0)],
     [132, 1, 133, 3, 131, 129], [2, 4, 0, 0, 0, 0, 1, 0, 0, 0], [], short=(1, 0))
hand("coherence", "a relaxed load has read the newer store: the older one is hidden, though no later store happens before the load", 11, [1], [2, 2],
     P(3) + C(3) + C(1, 1), [1, 4, 6, 1, 3, 1, 134], [6, 1, 1, 0, 0, 1, 0, 1, 0, 0], [], short=(0, 1))
hand("race_after_refusals", "r2 with two refused entries first: the race is told by its place in the whole schedule", 13, [1], [1], [(2, 0)] + P(1, 1) + P(3) + C(4),
     [129, 132, 1, 4, 6, 1, 2, 7, 130], [6, 3, 1, 0, 0, 1, 0, 0, 8, 4], [])

# Sizes: empty files, so that only the code is at stake.
EMPTY = [0] * 10


def empty(m, M, bits=15):
    return run_file(m, M, bits, [], [], [], [])


for m, M in [(128, 256), (3, 6), (128, 65536), (1, 2), (1, 65536)]:
    lawful(f"size_{m}_{M}", f"m = {m}, M = {M}: lawful", empty(m, M), EMPTY, [], [])
for m, M, code, why in [(0, 2, 3, "no slot"), (129, 258, 3, "129 slots"), (1, 1, 4, "M below 2"), (1, 0, 4, "M = 0"), (1, 65537, 4, "M above 65,536"),
                        (1, 16777218, 4, "a fourth byte in M"), (3, 3, 5, "M = m"), (3, 4, 5, "m does not divide M"), (128, 192, 5, "m does not divide M")]:
    refused(f"size_{m}_{M}", f"m = {m}, M = {M}: {why}, code {code}", empty(m, M), code)
refused("code_1_none", "0 bytes: code 1", b"", 1)
refused("code_1", "7 bytes: code 1", empty(1, 2)[:7], 1)
lawful("code_1_not", "8 bytes: lawful", empty(1, 2), EMPTY, [], [])
lawful("code_2_not", "65,536 bytes: lawful; 32,764 entries, and no batch for any of them", empty(1, 2) + bytes(65528), [0, 32764] + [0] * 8, [131] * 32764, [])
refused("code_2", "65,537 bytes: code 2", empty(1, 2) + bytes(65529), 2)
refused("code_2_more", "70,000 bytes: code 2", empty(1, 2) + bytes(69992), 2)
lawful("code_6_not", "order bits 0: lawful", empty(1, 2, 0), EMPTY, [], [])
refused("code_6", "order bits 16: code 6", empty(1, 2, 16), 6)
refused("code_6_most", "order bits 255: code 6", empty(1, 2, 255), 6)
refused("code_7_sizes", "the last pop size is missing: code 7", run_file(1, 2, 15, [1], [1], [], [])[:9], 7)
refused("code_7_bytes", "the last byte to push is missing: code 7", run_file(1, 2, 15, [1, 1], [], [65], []), 7)
lawful("code_7_not", "the last byte to push is the last byte", run_file(1, 2, 15, [1, 1], [1], [65, 66], []), EMPTY, [], [])
refused("code_7_before_8", "the last byte to push is missing, at an odd length: code 7", run_file(1, 2, 15, [2], [], [65], []), 7)
refused("code_8", "half an entry at the end: code 8", run_file(1, 2, 15, [1], [1], [65], P(3)) + b"\x01", 8)
lawful("code_8_not", "the same with the whole entry", run_file(1, 2, 15, [1], [1], [65], P(3) + C()), [4, 0, 1, 0, 0, 1, 0, 0, 0, 0], [1, 4, 6, 1], [])
refused("code_3_first", "no slot, M = 0, order bits 255: code 3", run_file(0, 0, 255, [], [], [], []) + b"\x01", 3)

# m = 128. A whole ring twice round: at M = 256 the indexes wrap, at M = 65,536 they do not.
DATA = [(7 * i + 3) % 256 for i in range(256)]
TWICE = P(130) + C(131) + P(131) + C(131)
TWICE_MARKS = [1] + [4] * 128 + [6] + [1, 2] + [5] * 128 + [6] + [1, 2] + [4] * 128 + [6] + [1, 2] + [5] * 128 + [6]
for M in (256, 65536):
    lawful(f"full_ring_{M}", f"m = 128, M = {M}: a full ring, emptied, and once more", run_file(128, M, 15, [128, 128], [128, 128], DATA, TWICE),
           [523, 0, 256, 256, 256, 0, 0, 0, 0, 0], TWICE_MARKS, DATA)
lawful("full_ring_stale", "m = 128, M = 256: a full ring, a pop of 100 bytes, a push that finds no room in the front it reads",
       run_file(128, 256, 15, [128, 128], [100], DATA, P(130) + C(103) + P() + P(1, 1)),
       [235, 0, 128, 100, 100, 28, 1, 0, 0, 0], [1] + [4] * 128 + [6] + [1, 2] + [5] * 100 + [6] + [1, 3], DATA[:100], short=(128, 0))

# 255 batches on each side, one byte each, through a ring of one slot: the indexes wrap 127 times.
ONES = [(i * 5 + 1) % 256 for i in range(255)]
lawful("batches_255", "255 batches on each side, one slot", run_file(1, 2, 15, [1] * 255, [1] * 255, ONES, P(3) + C(4) + (P(4) + C(4)) * 254),
       [2039, 0, 255, 255, 255, 0, 0, 0, 0, 0], [1, 4, 6, 1, 2, 5, 6] + [1, 2, 4, 6, 1, 2, 5, 6] * 254, ONES)

# 255 pushes of nothing: 256 stores of back, all of value 0. Age 255 is the initial one.
lawful("age_255", "age 255 is the initial store of 256; once the newest was read it is hidden, and so is age 1",
       run_file(1, 2, 15, [0] * 255, [1] * 4, [], P(510) + (C() + C(1, 255)) * 2 + C(2) + C() + C(1, 255) + C(1, 1) + C()),
       [518, 2, 0, 0, 0, 0, 0, 4, 0, 0], [1, 6] * 255 + [1, 3, 1, 3, 1, 3, 1, 134, 134, 3], [], short=(0, 1))
lawful("age_past", "of 255 stores age 255 is past the initial one, and age 254 is it",
       run_file(1, 2, 15, [0] * 254, [1], [], P(508) + C() + C(1, 255) + C(1, 254)),
       [510, 1, 0, 0, 0, 0, 0, 1, 0, 0], [1, 6] * 254 + [1, 133, 3], [], short=(0, 1))

# How much was missing. LETTERS are the bytes to push, as many as needed.
LETTERS = [97 + i for i in range(26)]
lawful("short_large_first", "m = 2: a push fails by 3, then one by 1: the largest counts, not the latest",
       run_file(2, 4, 15, [5, 3], [], LETTERS[:8], P(4)), [4, 0, 0, 0, 0, 0, 2, 0, 0, 0], [1, 3, 1, 3], [], short=(3, 0))
lawful("short_small_first", "m = 2: a push fails by 1, then one by 3: the largest counts, not the first",
       run_file(2, 4, 15, [3, 5], [], LETTERS[:8], P(4)), [4, 0, 0, 0, 0, 0, 2, 0, 0, 0], [1, 3, 1, 3], [], short=(3, 0))
# The second push of 2 begins with front known as 0, room 0; it reads 1, room 1.
lawful("short_push_reloaded", "m = 2: a push of 2 has room 0 before the reload and 1 after it: it fails by 1",
       run_file(2, 4, 15, [2, 2], [1], LETTERS[:4], P(4) + C(4) + P(2)),
       [10, 0, 2, 1, 1, 1, 1, 0, 0, 0], [1, 4, 4, 6, 1, 2, 5, 6, 1, 3], LETTERS[:1], short=(1, 0))
# The pop begins with back known as 0, room 0; it reads 2, room 2.
lawful("short_pop_reloaded", "m = 4: a pop of 3 has room 0 before the reload and 2 after it: it fails by 1",
       run_file(4, 8, 15, [2], [3], LETTERS[:2], P(4) + C(2)), [6, 0, 2, 0, 0, 2, 0, 1, 0, 0], [1, 4, 4, 6, 1, 3], [], short=(0, 1))
# Two stores of back, 2 and 4. The first pop of 4 reads 2, room 2; the second reads 4, room 4, and fits.
lawful("short_stale", "m = 4: a pop of 4 fails by 2 in the older back that it reads, and the next one fits in the newer",
       run_file(4, 8, 15, [2, 2], [4, 4], LETTERS[:4], P(8) + C() + C(1, 1) + C(7)),
       [17, 0, 4, 4, 4, 0, 0, 1, 0, 0], [1, 4, 4, 6, 1, 4, 4, 6, 1, 3, 1, 2, 5, 5, 5, 5, 6], LETTERS[:4], short=(0, 2))
# back is 3, front 0: the pop has room 3, the second push room 1.
lawful("short_both", "m = 4: a pop of 5 fails by 2, a push of 4 by 3: each is told for itself",
       run_file(4, 8, 15, [3, 4], [5], LETTERS[:7], P(5) + C(2) + P(2)),
       [9, 0, 3, 0, 0, 3, 1, 1, 0, 0], [1, 4, 4, 4, 6, 1, 3, 1, 3], [], short=(3, 2))
# An empty ring of one slot has room 1 for a push and 0 for a pop.
lawful("short_255", "m = 1: a push of 255 fails by 254, a pop of 255 by 255",
       run_file(1, 2, 15, [255], [255], bytes(255), P(2) + C(2)), [4, 0, 0, 0, 0, 0, 1, 1, 0, 0], [1, 3, 1, 3], [], short=(254, 255))
# back has gone 0, 2, 0 and front 0, 2: a full ring. The push of 3 has room (2 + 2 - 0) mod 4 = 0, the pop of 3 room (0 - 2) mod 4 = 2.
lawful("short_wrapped", "m = 2, M = 4: back has wrapped and front has not: a push of 3 fails by 3, a pop of 3 by 1",
       run_file(2, 4, 15, [2, 2, 3], [2, 3], LETTERS[:7], P(4) + C(5) + P(5) + P(2) + C(2)),
       [18, 0, 4, 2, 2, 2, 1, 1, 0, 0], [1, 4, 4, 6, 1, 2, 5, 5, 6, 1, 2, 4, 4, 6, 1, 3, 1, 3], LETTERS[:2], short=(3, 1))
# The halt of R2 takes nothing back: the pop of 2 before it reads back 1, room 1.
hand("short_then_race", "a pop fails by 1, and the next one races: the shortfall stays in the report", 13, [1], [2, 1], P(3) + C(4),
     [1, 4, 6, 1, 3, 1, 7], [7, 0, 1, 0, 0, 1, 0, 1, 7, 2], [], short=(0, 1))

# No going back to an older store. Nothing here loads a byte, so nothing races, and the marks are the same under every order: where the index
# synchronises (its store release, its load acquire) axiom 2 hides what coherence hides, elsewhere coherence alone does. A failed load counts as read,
# a refused one does not. Neither index synchronises with bits 0, 5 (loads strong), 10 (stores strong) and 12; back does with 6, 7 and 14; front with
# 9, 11 and 13; both with 15.
SETTINGS = (0, 5, 6, 7, 9, 10, 11, 12, 13, 14, 15)
# back is stored as 1, 2, 3. The pops of 5, which never fit, read: 0, though 1 is there (5 short); 1, the older of two; 1 again; not 0 but 2; not 1,
# not 0, but 2 again.
CONSUMER = (P(3) + C() + C(1, 1) + P(3) + C() + C(1, 1) + C() + C(1, 1) + C() + C(1, 2) + C() + P(3) + C() + C(1, 2) + C(1, 3) + C(1, 1))
CONSUMER_MARKS = [1, 4, 6, 1, 3, 1, 4, 6, 1, 3, 1, 3, 1, 134, 3, 1, 4, 6, 1, 134, 134, 3]
# front is stored three times by pops of nothing. The pushes of 2 into one slot, each 1 short, read the stores in the same way.
PRODUCER = (C(2) + P() + P(1, 1) + C(2) + P() + P(1, 1) + P() + P(1, 1) + P() + P(1, 2) + P() + C(2) + P() + P(1, 2) + P(1, 3) + P(1, 1))
PRODUCER_MARKS = [1, 6, 1, 3, 1, 6, 1, 3, 1, 3, 1, 134, 3, 1, 6, 1, 134, 134, 3]
for bits in SETTINGS:
    lawful(f"coherence_consumer_{bits}", f"order bits {bits}: pops read the same or a newer store of back, and never an older one",
           run_file(4, 8, bits, [1] * 3, [5] * 5, LETTERS[:3], CONSUMER), [19, 3, 3, 0, 0, 3, 0, 5, 0, 0], CONSUMER_MARKS, [], short=(0, 5))
    lawful(f"coherence_producer_{bits}", f"order bits {bits}: pushes read the same or a newer store of front, and never an older one",
           run_file(1, 2, bits, [2] * 5, [0] * 3, LETTERS[:10], PRODUCER), [16, 3, 0, 0, 0, 0, 5, 0, 0, 0], PRODUCER_MARKS, [], short=(1, 0))
# Each index has three stores, by batches of nothing. The consumer reads the second of back; the producer may still read the first of front, and
# then the third; the consumer may still read the second of back.
for bits in (0, 15):
    lawful(f"coherence_apart_{bits}", f"order bits {bits}: what one core has read of the other's index hides nothing from the other core",
           run_file(1, 2, bits, [0, 0, 2, 2], [0, 0, 1, 1], LETTERS[:4], P(4) + C(4) + C() + C(1, 1) + P() + P(1, 2) + P(2) + C() + C(1, 1)),
           [16, 0, 0, 0, 0, 0, 2, 2, 0, 0], [1, 6] * 4 + [1, 3] * 4, [], short=(1, 1))
# 256 stores of back: the first is age 255.
lawful("coherence_256", "256 stores, back relaxed: once age 100 was read, ages 101 and 255 are hidden; once 99 was, 100 is",
       run_file(1, 2, 9, [0] * 255, [1] * 4, [],
                P(510) + C() + C(1, 100) + C() + C(1, 101) + C(1, 255) + C(1, 100) + C() + C(1, 99) + C() + C(1, 100) + C()),
       [518, 3, 0, 0, 0, 0, 0, 4, 0, 0], [1, 6] * 255 + [1, 3, 1, 134, 134, 3, 1, 3, 1, 134, 3], [], short=(0, 1))

with open(os.path.join(HERE, "README.md"), "w") as f:
    f.write("# Stored runs\n\nEach is a run file, `NAME.run`, and what `runlist` must print for it, `NAME.out`; `make.py` has every expected line, worked by hand. "
            "`compare FOLDER COMMAND...` holds a program against the runs of a folder: runs of another kind have a folder of their own, and a line in the gate."
            "\n\n| run | what it shows |\n|---|---|\n")
    f.write("\n".join(LINES) + "\n")
