#!/usr/bin/env python3
"""Does the comparison see anything? Edits of the Rust, one at a time, each of which judge.py must find.

    mutants.py [--only N]

Each edit is made in a copy under against-rust/target/mutants (the nine files stay as they are), built, and judged on a
part of the plan. Status 1: one was not found.
"""
import argparse
import os
import pathlib
import shutil
import subprocess
import sys

HERE = pathlib.Path(__file__).resolve().parent
WORK = HERE / "target" / "mutants"
DPB, PICTURE, H265 = "codec/h265/dpb.rs", "codec/h265/picture.rs", "decoder/stateless/h265.rs"
LONG_SEARCH = "self.pictures().position(|p| p.is_ref() && p.pic_order_cnt_val & mask == poc)"
LATE = "(max_latency_increase_plus1 != 0 && pic_over_max_latency.is_some())\n    }"
# what is changed, file, old text (its first occurrence), new text
EDITS = [
    ("POC: > for >= at M/2", PICTURE, ">= (max_pic_order_cnt_lsb / 2)", "> (max_pic_order_cnt_lsb / 2)"),
    ("flags: sub-layer non-reference pictures valid for Tid0", PICTURE, "&& !nalu_type.is_slnr()", ""),
    ("flags: no output of prior pictures at a CRA", PICTURE, "nalu_type.is_cra() || hdr", "hdr"),
    ("flags: RASL output", PICTURE, "is_rasl() && no_rasl_output_flag", "is_rasl() && false"),
    ("marks: those in no set keep theirs", H265, "dpb_pic.0.borrow_mut().set_reference(Reference::None);", ""),
    ("marks: LtFoll not marked", H265, "for pic in self.codec.rps.ref_pic_set_lt_foll.iter().flatten() {",
     "for pic in self.codec.rps.ref_pic_set_lt_foll[16..].iter().flatten() {"),
    ("sets: a long-term search that wants short-term marks", DPB, LONG_SEARCH,
     LONG_SEARCH.replace("p.is_ref()", "matches!(p.reference(), Reference::ShortTerm)")),
    ("sets: the last match, not the first", DPB, LONG_SEARCH,
     "(0..self.entries.len()).rev().find(|&i| "
     "{ let p = self.entries[i].0.borrow(); p.is_ref() && p.pic_order_cnt_val & mask == poc })"),
    ("sets: Foll the other way round", H265, "self.codec.rps.num_poc_st_foll = k as _;",
     "self.codec.rps.poc_st_foll[..k].reverse(); self.codec.rps.num_poc_st_foll = k as _;"),
    ("lists: list 1 takes StCurrBefore's members for StCurrAfter's", H265,
     "ref_pic_list_temp1[r_idx as usize] =\n                        self.ref_pic_set_st_curr_after[i]",
     "ref_pic_list_temp1[r_idx as usize] =\n                        self.ref_pic_set_st_curr_before[i]"),
    ("lists: entries of list 1 taken from list 0's", H265,
     "let idx = rplm.list_entry_l1[r_idx];", "let idx = rplm.list_entry_l0[r_idx];"),
    ("output: the highest POC first", DPB,
     ".min_by_key(|pic| pic.pic_order_cnt_val)?", ".max_by_key(|pic| pic.pic_order_cnt_val)?"),
    ("output: >= reorder", DPB,
     "num_needed_for_output > max_num_reorder_pics.into()\n            || " + LATE,
     "num_needed_for_output >= max_num_reorder_pics.into()\n            || " + LATE),
    ("output: latency not tested", DPB, LATE, "false\n    }"),
    ("output: buffering not tested", DPB, "|| self.entries().len() >= max_dec_pic_buffering",
     "|| false && self.entries().len() >= max_dec_pic_buffering"),
    ("store: counts do not rise", DPB, "pic.pic_latency_cnt += 1;", ""),
    ("store: unused pictures stay", DPB, "let retain = pic.needed_for_output || pic.is_ref();",
     "let retain = true || pic.needed_for_output || pic.is_ref();"),
    ("store: unmarked pictures handed out stay", DPB, "if !pic.is_ref() || flush {", "if flush {"),
    ("step 5: clear where the store is emptied", H265,
     "if cur_pic.no_output_of_prior_pics_flag {", "if true || cur_pic.no_output_of_prior_pics_flag {"),
    ("finish: the previous Tid0 picture not set", H265,
     "if pic.valid_for_prev_tid0_pic {", "if false && pic.valid_for_prev_tid0_pic {"),
]


def build(number, file, old, new):
    crate = WORK / "crate"
    shutil.rmtree(crate, ignore_errors=True)
    shutil.copytree(HERE / "target" / "crate", crate)
    path = crate / "src" / file
    text = path.read_text()
    if old not in text:
        raise SystemExit(f"mutants.py: edit {number} finds nothing to change")
    path.write_text(text.replace(old, new, 1))
    environment = os.environ | {"CARGO_TARGET_DIR": str(WORK / "build"), "RUSTFLAGS": "-A warnings"}
    subprocess.run(["cargo", "build", "--release", "--offline", "--quiet"], cwd=crate, env=environment, check=True)
    return WORK / "build" / "release" / "judge"


def found(judge):
    for profile in ("long-term", "leading", "random-access", "small", "chaos"):
        words = ["--scale", "0.06", "--timeout", "20", "--profile", profile]
        command = [sys.executable, str(HERE / "judge.py"), str(judge), *words]
        done = subprocess.run(command, stdout=subprocess.PIPE, stderr=subprocess.DEVNULL, text=True)
        if done.returncode == 1 and "DIFFERENCE" in done.stdout:
            return done.stdout.partition("\n")[0]
    return None


def main():
    parser = argparse.ArgumentParser(description=__doc__, formatter_class=argparse.RawDescriptionHelpFormatter)
    parser.add_argument("--only", type=int)
    arguments = parser.parse_args()
    subprocess.run([str(HERE / "build.sh")], stdout=subprocess.DEVNULL, check=True)
    missed = 0
    for number, (what, file, old, new) in enumerate(EDITS, 1):
        if arguments.only not in (None, number):
            continue
        first = found(build(number, file, old, new))
        missed += first is None
        print(f"{number:3} {what}: {first or 'NOT FOUND'}", flush=True)
    print(f"{missed} edits not found")
    return 1 if missed else 0


if __name__ == "__main__":
    sys.exit(main())
