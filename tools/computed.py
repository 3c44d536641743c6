#!/usr/bin/env python3
"""computed.py: writes crates/model/proofs/Computed.antt, what the definitions of documents 01 and 02 compute.

Every expected value is worked out here from the documents by hand, or is a job from outside with its
answers (NNN.in, NNN.out of tools/vectors); antt computes the definitions and compares by `refl`. Run
it from anywhere; it writes the one file, the same each time.
"""
import os
import re

ROOT = os.path.dirname(os.path.dirname(os.path.abspath(__file__)))
VECTORS = os.path.join(ROOT, "tools", "vectors")

SMALL = sorted(name[:-3] for name in os.listdir(VECTORS) if name.endswith(".in"))

WORKED = b"E 7\nE 007\nF 007 100 12\nS 7\nS 007\nE 7\nW 007\nS 007\nF 7 0 5\n"
WORKED_OUT = b"0 0 0 0\n0 1 0 0\n0 2 0 1\n0 1 0 0\n0 2 0 1 100:12\n6 1 0 0\n0 2 0 1 100:12\n7 1 0 0\n5 0 0 0\n"

LATE = b"E 7\nF 7 20 9\nF 7 10 5\nF 7 20 8\nF 7 10 4\nS 7\n"
LATE_OUT = b"0 0 0 0\n0 1 0 1\n0 1 0 2\n0 1 0 3\n0 1 0 4\n0 1 0 4 10:5 10:4 20:9 20:8\n"


def unfoldable():
    """Every definition of the model and the rules that stays shut, by module."""
    names = []
    for crate, library in (("rules", "Rattle.rules.specs"), ("model", "Rattle.model.specs")):
        folder = os.path.join(ROOT, "crates", crate, "specs")
        for module in re.findall(r"^pub mod (\S+)", open(os.path.join(folder, "Lib.antt")).read(), re.M):
            text = open(os.path.join(folder, module + ".antt")).read()
            found = re.findall(r"^unfoldable pub (\S+)", text, re.M)
            if found and module != "Examples":
                names.append((library + "." + module, module, found))
    return names


def numbers(xs):
    return "(" + " ∷ ".join([str(x) for x in xs] + ["[]"]) + ")" if len(xs) else "[]"


def shown(text):
    """A text as a comment shows it."""
    line = text.decode("latin-1").encode("unicode_escape").decode().replace("\\n", "⏎")
    return "`%s`" % line if len(line) <= 120 else "`%s` .." % line[:116]


def named(name, text):
    return "-- %s\n%s : List ℕ\n%s = %s\n" % (shown(text), name, name, numbers(list(text)))


def claim(name, left, right, opened):
    return "%s : %s ≡ %s\nunfolding %s\n%s = refl\n" % (name, left, right, opened, name)


def tally(entries=0, withdrawals=0, filings=0, splits=0, contractions=0, comparisons=0):
    return "tallied %d %d %d %d %d %d" % (entries, withdrawals, filings, splits, contractions, comparisons)


def words(cards, faults, held, faults_held, free, free_faults, buckets, card_cells, fault_cells):
    """The words of a table of 16 buckets in format 2 with the bounds 4 and 2, from document 01's layout table and
    request 04: cells by number, free chains in order."""
    chain = lambda cells: dict(zip(cells, cells[1:] + [0]))
    w = [2, cards, faults, 16, 0, held, faults_held, (free + [0])[0], (free_faults + [0])[0]]
    w += [16, 32, 288, 288 + 9 * cards, 288 + 9 * cards + 3 * faults, 256 * 4 + 2, 0]
    w += [32] + [0] * 15
    w += [buckets.get(b, 0) for b in range(256)]
    for i in range(1, cards + 1):
        w += card_cells[i] if i in card_cells else [chain(free)[i]] + [0] * 8
    for i in range(1, faults + 1):
        w += fault_cells[i] if i in fault_cells else [chain(free_faults)[i]] + [0] * 2
    return w


def in_format_one(w):
    """The same store in format 1, which has no word for the bounds 4 and 2."""
    return [1] + w[1:14] + [0] + w[15:]


def code(serial):
    """The code of a serial: from 0, for each byte 33 times the code and the byte, in 32 bits."""
    c = 0
    for b in serial:
        c = (33 * c + b) % 2**32
    return c


def address(serial, maxp, p):
    """Its bucket in a table of maxp + p buckets."""
    a = code(serial) % maxp
    return code(serial) % (2 * maxp) if a < p else a


def terms(cards, faults, upper, lower):
    return "(record { cards = %d; faults = %d; upper = %d; lower = %d })" % (cards, faults, upper, lower)


def main():
    modules = unfoldable()
    out = []
    out.append("-- What the definitions compute: document 01's worked job, its examples that run, late slips, and outside job vectors.\n"
               "-- Written by tools/computed.py; each claim holds by computation alone. Assumes nothing.\n"
               "use Prim.Native.Nat.{ℕ}\n"
               "use mathlib.Core.Path.{◌≡◌, refl}\n"
               "use mathlib.Core.Bool.{true, false}\n"
               "use mathlib.Core.List.{List, [], ◌∷◌, ◌++◌, map}\n"
               "use lib.ListN.{set, replicate}\n"
               + "".join("use %s as %s\n" % (m, short) for m, short, _ in modules))
    everything = " ".join("%s.%s" % (short, n) for _, short, ns in modules for n in ns)
    out.append("-- to unfold this is to unfold every definition of the rules and the model\n"
               "open_all : List ℕ → List ℕ\nunfolding %s\nopen_all x = x\n" % everything)
    out.append("tallied : ℕ → ℕ → ℕ → ℕ → ℕ → ℕ → Job.Tally\n"
               "tallied e w f s c k = record { entries = e; withdrawals = w; filings = f; splits = s; contractions = c; comparisons = k }\n")
    out.append("-- the shape that Open makes with 4 and 2\n"
               "usual : ℕ → ℕ → Shape.Shape\n"
               "usual c f = Calls.shape_for (record { cards = c; faults = f; upper = 4; lower = 2 })\n")
    out.append("-- the answers to a text on a fresh store with these limits, and the tally of a job that begins with none\n"
               "ran : ℕ → ℕ → List ℕ → Job.Run\nunfolding tallied usual\n"
               "ran c f text = Job.run_lines (Text.lines_of text) 16384 (Job.started (Model.fresh (usual c f)) (tallied 0 0 0 0 0 0))\n")
    out.append("answers : ℕ → ℕ → List ℕ → List ℕ\nunfolding open_all ran tallied usual\nanswers c f text = (ran c f text).text\n")

    # the worked job
    out.append(named("worked_in", WORKED))
    out.append(named("worked_out", WORKED_OUT))
    out.append("-- document 01's worked job, on depot's limits\n"
               + claim("worked", "answers 256 512 worked_in", "worked_out", "answers worked_in worked_out"))
    out.append(claim("worked_tally", "(ran 256 512 worked_in).tally", tally(2, 1, 1, 0, 0, 10), "answers ran tallied worked_in"))

    # the same on words: card 7 in cell 1 of bucket 7; cell 2 and fault cell 1 were freed to the front
    before = words(8, 8, 0, 0, list(range(1, 9)), list(range(1, 9)), {}, {}, {})
    after = words(8, 8, 1, 0, list(range(2, 9)), list(range(1, 9)), {7: 1}, {1: [0, 1, 55 << 24] + [0] * 6}, {})
    out.append("-- the words of a fresh store of 8 cards and 8 faults, and after the worked job\n"
               "before : List ℕ\nbefore = %s\n" % numbers(before))
    out.append("after : List ℕ\nafter = %s\n" % numbers(after))
    out.append(claim("opened", "Calls.open_call (replicate %d 5) %s" % (len(before), terms(8, 8, 4, 2)),
                     "(record { number = 0; words = before })", "open_all before"))
    out.append("-- Open refuses by 1, then by 15, then by 2: limits, bounds and length wrong; bounds and length; the length alone\n"
               + claim("limits_first", "(Calls.open_call (5 ∷ []) %s).number" % terms(0, 8, 1, 1), "1", "open_all"))
    out.append(claim("bounds_next", "(Calls.open_call (5 ∷ []) %s).number" % terms(8, 8, 3, 2), "15", "open_all"))
    out.append(claim("length_last", "(Calls.open_call (5 ∷ []) %s).number" % terms(8, 8, 10, 5), "2", "open_all"))
    opened = "open_all tallied worked_in worked_out before after"
    out.append("-- the job on words: scratch of other content, output with room past the bytes written\n"
               + claim("whole", "Job.job before (replicate 400 7) worked_in (replicate 300 1) (%s)" % tally(1, 1, 1, 1, 1, 1),
                       "(record { number = 0; lines = 9; bytes = %d; words = after; out = worked_out ++ replicate %d 1; scratch = replicate 384 0 ++ replicate 16 7; tally = %s })"
                       % (len(WORKED_OUT), 300 - len(WORKED_OUT), tally(3, 2, 2, 1, 1, 11)), opened))
    out.append("-- the same store in format 1 is sound with word 14 zero alone, and the job leaves it in format 1\n"
               "first_before : List ℕ\nfirst_before = %s\n" % numbers(in_format_one(before)))
    out.append("first_after : List ℕ\nfirst_after = %s\n" % numbers(in_format_one(after)))
    out.append(claim("first_sound", "Layout.sound first_before", "true", "open_all first_before"))
    out.append(claim("first_with_bounds", "Layout.sound (set first_before 14 1026)", "false", "open_all first_before"))
    out.append(claim("first_whole", "Job.job first_before (replicate 384 7) worked_in (replicate %d 1) (%s)" % (len(WORKED_OUT), tally()),
                     "(record { number = 0; lines = 9; bytes = %d; words = first_after; out = worked_out; scratch = replicate 384 0; tally = %s })"
                     % (len(WORKED_OUT), tally(2, 1, 1, 0, 0, 10)), "open_all tallied worked_in worked_out first_before first_after"))
    # the third answer does not fit: two lines stand, the fault is not filed
    two = words(8, 8, 2, 0, list(range(3, 9)), list(range(1, 9)), {7: 1},
                {1: [2, 1, 55 << 24] + [0] * 6, 2: [0, 3, (48 << 24) + (48 << 16) + (55 << 8)] + [0] * 6}, {})
    out.append("-- stopped by 10 before its third line: two lines stand, and the output past them stays\n"
               "two_lines : List ℕ\ntwo_lines = %s\n" % numbers(two))
    out.append(claim("stopped", "Job.job before (replicate 384 7) worked_in (replicate 23 1) (%s)" % tally(),
                     "(record { number = 10; lines = 2; bytes = 16; words = two_lines; out = %s ++ replicate 7 1; scratch = replicate 384 0; tally = %s })"
                     % (numbers(list(WORKED_OUT[:16])), tally(2, 0, 0, 0, 0, 1)), "open_all tallied worked_in before two_lines"))
    out.append("-- 11 leaves all as it was; 3 and 13 clean the scratch, and 13 comes before 3; an empty text has no line\n"
               + claim("no_scratch", "Job.job before (replicate 383 7) worked_in (replicate 30 1) (%s)" % tally(1),
                       "(record { number = 11; lines = 0; bytes = 0; words = before; out = replicate 30 1; scratch = replicate 383 7; tally = %s })" % tally(1),
                       "open_all tallied worked_in before"))
    out.append(claim("not_sound_lem", "Job.job (set before 14 1) (replicate 385 7) worked_in (replicate 30 1) (%s)" % tally(1),
                     "(record { number = 3; lines = 0; bytes = 0; words = set before 14 1; out = replicate 30 1; scratch = replicate 384 0 ++ (7 ∷ []); tally = %s })" % tally(1),
                     "open_all tallied worked_in before"))
    out.append(claim("too_long", "Job.job (set before 14 1) (replicate 384 7) (replicate 16385 88) (replicate 30 1) (%s)" % tally(1),
                     "(record { number = 13; lines = 0; bytes = 0; words = set before 14 1; out = replicate 30 1; scratch = replicate 384 0; tally = %s })" % tally(1),
                     "open_all tallied before"))
    out.append(claim("no_lines", "Job.job before (replicate 384 7) [] [] (%s)" % tally(1),
                     "(record { number = 0; lines = 0; bytes = 0; words = before; out = []; scratch = replicate 384 0; tally = %s })" % tally(1),
                     "open_all tallied before"))

    # late slips: the listing goes by day, the fault cells stay as filed
    filed = words(8, 8, 1, 4, list(range(2, 9)), list(range(5, 9)), {7: 1}, {1: [0, 1, 55 << 24, 0, 0, 0, 1, 4, 4]},
                  {1: [2, 20, 9], 2: [3, 10, 5], 3: [4, 20, 8], 4: [0, 10, 4]})
    out.append(named("late_in", LATE))
    out.append("-- late slips are listed by rising day, equal days as filed, and stand in the words as filed\n"
               "late_words : List ℕ\nlate_words = %s\n" % numbers(filed))
    out.append(claim("late", "Job.job before (replicate 384 7) late_in (replicate 90 1) (%s)" % tally(),
                     "(record { number = 0; lines = 6; bytes = %d; words = late_words; out = %s ++ replicate %d 1; scratch = replicate 384 0; tally = %s })"
                     % (len(LATE_OUT), numbers(list(LATE_OUT)), 90 - len(LATE_OUT), tally(1, 0, 4, 0, 0, 5)),
                     "open_all tallied late_in before late_words"))

    # bucket 7 of a (16, 7) table
    out.append("-- `7`, `07`, `007` in bucket 7 of a (16, 7) table: split to `07` and `7`, `007`, and joined again\n"
               "card : List ℕ → Model.Card\ncard y = record { at = 1; serial = y; faults = [] }\n")
    out.append("seven : Model.Store\nunfolding card usual\n"
               "seven = record { shape = usual 8 8; maxp = 16; p = 7; buckets = set (replicate 23 []) 7 (card %s ∷ card %s ∷ card %s ∷ []); free = []; free_faults = [] }\n"
               % tuple(numbers(list(s)) for s in (b"7", b"07", b"007")))
    out.append("serials : Model.Store → ℕ → List (List ℕ)\nserials s b = map (λ c. c.serial) (Model.bucket s b)\n")
    seen = "open_all card seven serials"
    out.append(claim("split_stay", "serials (Model.split seven) 7", "(%s ∷ [])" % numbers(list(b"07")), seen))
    out.append(claim("split_go", "serials (Model.split seven) 23", "(%s ∷ %s ∷ [])" % (numbers(list(b"7")), numbers(list(b"007"))), seen))
    out.append(claim("split_state", "(Model.split seven).p", "8", seen))
    out.append(claim("joined", "serials (Model.contract (Model.split seven)) 7",
                     "(%s ∷ %s ∷ %s ∷ [])" % tuple(numbers(list(s)) for s in (b"07", b"7", b"007")), seen))
    out.append(claim("joined_size", "Model.size (Model.contract (Model.split seven))", "23", seen))

    # 17 cards in 17 buckets, at least one a bucket: the next withdrawal contracts, and the last bucket goes behind bucket 0
    placed = {}
    for serial in [b"00", b"0", b"P", b"AO"] + [b"%d" % d for d in range(1, 4)] + [b"A", b"B", b"C", b"D"] + [b"%d" % d for d in range(4, 10)]:
        placed.setdefault(address(serial, 16, 1), []).append(serial)
    assert sum(map(len, placed.values())) == 17 and placed[0] == [b"00"] and placed[16] == [b"0", b"P", b"AO"] and placed[4] == [b"D", b"4"]
    assert all(address(serial, 16, 0) == 0 for serial in placed[0] + placed[16])
    chains = "(" + " ∷ ".join("(" + " ∷ ".join(["card " + numbers(list(s)) for s in placed.get(b, [])] + ["[]"]) + ")" for b in range(17)) + " ∷ [])"
    out.append("-- 17 cards in a (16, 1) table of the bounds 2 and 1: three stand in its last bucket; with `4` withdrawn from bucket 4 they go behind the one of bucket 0\n"
               "seventeen : Model.Store\nunfolding card\n"
               "seventeen = record { shape = Calls.shape_for %s; maxp = 16; p = 1; buckets = %s; free = []; free_faults = [] }\n" % (terms(17, 1, 2, 1), chains))
    gone = "Calls.withdraw_step seventeen %s 1 []" % numbers(list(b"4") + [0] * 15)
    seen = "open_all card seventeen serials"
    out.append(claim("contracted", "(%s).answer" % gone, "(record { number = 0; comparisons = %d; scanned = %d; faults = 0 })" % (placed[4].index(b"4") + 1, len(placed[16])), seen))
    out.append(claim("contracted_size", "Model.size (%s).store" % gone, "16", seen))
    out.append(claim("contracted_bucket", "serials (%s).store 0" % gone, "(%s)" % " ∷ ".join([numbers(list(s)) for s in placed[0] + placed[16]] + ["[]"]), seen))

    # the limits at 1
    one = [("one_card", 1, 1, b"E 7\nE 8\nE 7\nW 7\nE 8\n", b"0 0 0 0\n8 0 0 0\n6 1 0 0\n0 1 0 0\n0 0 0 0\n"),
           ("one_fault", 1, 1, b"E 7\nF 7 1 1\nF 7 2 2\nW 7\nE 7\nF 7 3 3\nS 7\n",
            b"0 0 0 0\n0 1 0 1\n9 1 0 0\n0 1 0 1 1:1\n0 0 0 0\n0 1 0 1\n0 1 0 1 3:3\n")]
    out.append("-- C = 1: a second card 8, the same card 6, a new card after withdrawal 0; F = 1: a second fault 9, and 0 after withdrawal and entry\n")
    for name, c, f, text, expected in one:
        out.append(named(name + "_in", text))
        out.append(claim(name, "answers %d %d %s_in" % (c, f, name), numbers(list(expected)), "answers %s_in" % name))

    # outside vectors
    out.append("-- outside job vectors, on depot's limits\n")
    for v in SMALL:
        text = open(os.path.join(VECTORS, v + ".in"), "rb").read()
        expected = open(os.path.join(VECTORS, v + ".out"), "rb").read()
        out.append(named("in_" + v, text))
        out.append(claim("vector_" + v, "answers 256 512 in_" + v, numbers(list(expected)), "answers in_" + v))
    with open(os.path.join(ROOT, "crates", "model", "proofs", "Computed.antt"), "w") as f:
        f.write("\n".join(out))


main()
