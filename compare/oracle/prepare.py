"""Makes the oracle's source: the original's files, copied and edited line by line, among the stand-ins of src/.

Every edit is a whole line (or two) of the original with what takes its place. It must be found exactly once outside
the file's tests, or nothing is made. SLIPS are deliberate faults, one at a time, to see that a comparison notices them.
"""
import hashlib
import shutil
from pathlib import Path

HERE = Path(__file__).resolve().parent

# The original's files that are taken over; those named in no edit are taken as they are.
ORIGINAL = [
    "block.rs",
    "eval_result.rs",
    "geom.rs",
    "graph.rs",
    "graph/common.rs",
    "graph/implicit.rs",
    "image.rs",
    "region.rs",
    "ternary.rs",
    "traits.rs",
]

# (file, why, the original's line, what takes its place)
EDITS = [
    (
        "block.rs",
        "a module of ours below, which reads the private state",
        "use std::{collections::VecDeque, ptr::copy_nonoverlapping};",
        "use std::{collections::VecDeque, ptr::copy_nonoverlapping};\npub mod peek;",
    ),
    ("graph.rs", "the other kinds of graph are left out", "pub mod explicit;", ""),
    ("graph.rs", "the other kinds of graph are left out", "pub mod parametric;", ""),
    (
        "graph/implicit.rs",
        "the clock is a budget of steps",
        "    time::{Duration, Instant},",
        "    time::Duration,",
    ),
    (
        "graph/implicit.rs",
        "the clock is a budget of steps; a module of ours below, which reads the private state",
        "use inari::Decoration;",
        "use crate::clock::Instant;\nuse inari::Decoration;\npub mod peek;",
    ),
    (
        "graph/implicit.rs",
        "the tape learns the children, and whose turn it is, skipped ones too",
        "            for sub_b in sub_bs.drain(..) {",
        "            self.rel.list_children(&sub_bs, &self.bs_to_subdivide);\n"
        "            for sub_b in sub_bs.drain(..) {\n"
        "                self.rel.next_child();",
    ),
    (
        "graph/implicit.rs",
        "the area bit decides whether there is an area to sample",
        "        let inter = u_up.intersection(&p_dn);",
        "        let inter = self.rel.sample_area(u_up.intersection(&p_dn));",
    ),
]

# name: (file, the original's line, the fault)
SLIPS = {
    "taken-reads-waiting": (
        "graph/common.rs",
        "            PixelState::Uncertain(Some(bi)) => bi as usize >= front_block_index,\n"
        "            PixelState::Uncertain(None) => true,",
        "            PixelState::Uncertain(Some(bi)) => bi as usize + 1 >= front_block_index,\n"
        "            PixelState::Uncertain(None) => true,",
    ),
    "give-up-spares-true": (
        "graph/implicit.rs",
        "                        self.im[p] = PixelState::Uncertain(None);",
        "                        if self.im[p] != PixelState::True { self.im[p] = PixelState::Uncertain(None); }",
    ),
    "area-bit-ignored": (
        "graph/implicit.rs",
        "            if result.certainly_true() && !inter.is_empty() {",
        "            if result.certainly_true() {",
    ),
    "repeats-of-t-dropped": (
        "block.rs",
        "    pub fn subdivide0(&self) -> SmallVec<[Self; 2]> {",
        "    pub fn subdivide0(&self) -> SmallVec<[Self; 2]> {\n"
        "        if self.0.is_singleton() { return SmallVec::from_iter([*self]); }",
    ),
    "renamed-from-the-next": (
        "graph/implicit.rs",
        "                self.set_last_queued_block(&sub_b, last_bi, Some(bi))?;",
        "                self.set_last_queued_block(&sub_b, last_bi, Some(bi + 1))?;",
    ),
    "limit-of-t": (
        "graph/implicit.rs",
        "                Some(VarSet::T) => 2,",
        "                Some(VarSet::T) => 1,",
    ),
    "always-the-same-direction": (
        "graph/implicit.rs",
        "                        b.next_dir_index + 1",
        "                        b.next_dir_index",
    ),
    "rows-from-the-bottom": (
        "graph/implicit.rs",
        "            PixelIndex::new(begin.x, self.im.height() - end.y),\n"
        "            PixelIndex::new(end.x, self.im.height() - begin.y),",
        "            PixelIndex::new(begin.x, begin.y),\n            PixelIndex::new(end.x, end.y),",
    ),
    "longer-code-than-needed": (
        "block.rs",
        "            0x80..=0x3fff => 1,\n            0x4000..=0x1fffff => 2,",
        "            0x80..=0x1fff => 1,\n            0x2000..=0x1fffff => 2,",
    ),
    "width-one-kept": (
        "block.rs",
        "            if w == 1.0 {",
        "            if w == 1.5 {",
    ),
}


def source_folder(folder):
    """Where in a given folder the original's files lie."""
    for place in (folder / "rust" / "src", folder / "src", folder):
        if all((place / name).is_file() for name in ORIGINAL):
            return place
    raise SystemExit(f"{folder}: the original's files are not there (expected rust/src/block.rs and its kin)")


def edited(text, name, old, new):
    """The text with one whole line replaced, which its tests do not count for."""
    head, mark, tests = text.partition("\n#[cfg(test)]")
    found = ("\n" + head + "\n").count("\n" + old + "\n")
    if found != 1:
        raise SystemExit(f"{name}: expected once, found {found} times:\n{old}")
    return ("\n" + head + "\n").replace("\n" + old + "\n", "\n" + new + "\n")[1:-1] + mark + tests


def prepare(folder, target, slip=None):
    """Writes the oracle's source below `target` and returns the checksums of the original's files."""
    source = source_folder(Path(folder))
    texts = {name: (source / name).read_text() for name in ORIGINAL}
    sums = {name: hashlib.sha256(text.encode()).hexdigest() for name, text in texts.items()}
    for name, _, old, new in EDITS:
        texts[name] = edited(texts[name], name, old, new)
    if slip is not None:
        name, old, new = SLIPS[slip]
        texts[name] = edited(texts[name], name, old, new)
    shutil.rmtree(target, ignore_errors=True)
    shutil.copytree(HERE / "src", target)
    for name, text in texts.items():
        if (target / name).exists():
            raise SystemExit(f"{name}: a stand-in has the original's name")
        (target / name).parent.mkdir(parents=True, exist_ok=True)
        (target / name).write_text(text)
    return sums
