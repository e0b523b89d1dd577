//! Runs the built program as a process, and compares what it writes with the
//! replies worked out here. This looks at what the proofs leave to the library:
//! that the program opens and reads what it is told, and what it says where it
//! cannot. Document 01 has the quote; the other words are the project's own:
//!
//! * `audit SHEET STAGE` prints "fits cells C", "differs cells C",
//!   "sheet refused N at P" or "stage refused N at P".
//! * `clean SHEET` prints the copy of document 02, E1, as hex pairs; or
//!   "refused N at P".
//! * `shared SHEET` and `audit-shared SHEET STAGE` print as the quote and as the
//!   audit, for the board of document 02, E2.
//! * `joined FIRST SECOND` prints as the quote, for document 02, E6; or
//!   "first refused N at P" or "second refused N at P". A sheet that is too long is
//!   the first thing that is refused of it: the first's 14 and all else of the first
//!   come before the second's 14.

use crate::audit::{audit, Audit};
use crate::board::{Board, BOARDS};
use crate::case::{found, pairs, refused, Case, Outcome};
use crate::check::Checker;
use crate::clean::{clean, LONGEST_COPY};
use crate::diagram::{LONGEST_LISTS, MOST_ENTRIES};
use crate::draw::diagrams::largest_stage;
use crate::draw::sheets::longest_draft_of;
use crate::draw::six::parity;
use crate::draw::two_units;
use crate::joined::{quote_joined, Refused, Which};
use crate::pick::Picker;
use crate::plan::cases;
use crate::quote::quote;
use crate::random::Random;
use crate::refusal::{refuse, Refusal, TOO_LONG};
use crate::rows::shared::A_LISTS;
use crate::rows::{A, A_STAGE};
use crate::sheet;
use crate::stage::LONGEST_STAGE;
use std::ffi::{OsStr, OsString};
use std::fs::File;
use std::io::{Result, Write};
use std::os::unix::ffi::{OsStrExt, OsStringExt};
use std::path::{Path, PathBuf};
use std::process::{Command, Output, Stdio};
use std::time::Duration;

const SEED: u64 = 0x0B5E_55ED_C0DE_2013;
/// The program's budget, and its longest sheet.
const BUDGET: u32 = 10_000;
const LONGEST_SHEET: usize = 4_096;
/// Of the drawn cases, one in so many is run: some hundreds of each kind. Quotes
/// and audits for each board.
const ONE_QUOTE_IN: [usize; 2] = [24, 5];
const ONE_AUDIT_IN: [usize; 2] = [11, 4];
const ONE_COPY_IN: usize = 9;
const ONE_JOINED_IN: usize = 12;
/// Of those with a sheet that says it has five inputs or six.
const ONE_WIDE_IN: usize = 4;

/// What is said behind a word that there is not.
const ADVICE: &str = ": try shared SHEET, audit SHEET STAGE, audit-shared SHEET STAGE or clean SHEET";

/// What was run, for each board where it has one, and what did not come out as
/// expected.
#[derive(Default)]
pub struct Outcomes {
    pub quotes: [usize; 2],
    pub audits: [usize; 2],
    pub copies: usize,
    pub joined: usize,
    pub complaints: usize,
    pub faults: Vec<String>,
}

/// Runs everything, in a temporary folder that is gone afterwards.
pub fn run(program: &Path) -> Result<Outcomes> {
    let mut bench = Bench::new(program)?;
    bench.drawn()?;
    bench.lengths()?;
    bench.joined_lengths()?;
    bench.pieces()?;
    bench.complaints()?;
    Ok(std::mem::take(&mut bench.outcomes))
}

struct Bench {
    program: PathBuf,
    folder: PathBuf,
    picker: Picker,
    checker: Checker,
    rng: Random,
    outcomes: Outcomes,
}

impl Drop for Bench {
    fn drop(&mut self) {
        let _ = std::fs::remove_dir_all(&self.folder);
    }
}

impl Bench {
    fn new(program: &Path) -> Result<Bench> {
        let program = program.canonicalize()?;
        let folder = std::env::temp_dir().join(format!("trials-program-{}", std::process::id()));
        std::fs::create_dir(&folder)?;
        let (picker, checker, rng) = (Picker::new(), Checker::default(), Random::new(SEED));
        Ok(Bench { program, folder, picker, checker, rng, outcomes: Outcomes::default() })
    }

    // What is run.

    /// A part of the drawn cases of `plan`.
    fn drawn(&mut self) -> Result<()> {
        // Counted apart: whether they are wide.
        let (mut quotes, mut audits, mut copies, mut joined) = ([[0; 2]; 2], [[0; 2]; 2], [0; 2], [0; 2]);
        for case in cases() {
            match case {
                Case::Quote { board, sheet, .. } => {
                    let wide = is_wide(&sheet);
                    let many = if wide { ONE_WIDE_IN } else { ONE_QUOTE_IN[board as usize] };
                    if is_one_in(many, &mut quotes[board as usize][usize::from(wide)]) {
                        self.quote(board, &sheet)?;
                    }
                }
                Case::Audit { board, sheet, stage } => {
                    let wide = is_wide(&sheet);
                    let many = if wide { ONE_WIDE_IN } else { ONE_AUDIT_IN[board as usize] };
                    if is_one_in(many, &mut audits[board as usize][usize::from(wide)]) {
                        self.audit(board, &sheet, &stage)?;
                    }
                }
                Case::Clean { sheet, .. } => {
                    let wide = is_wide(&sheet);
                    if is_one_in(if wide { ONE_WIDE_IN } else { ONE_COPY_IN }, &mut copies[usize::from(wide)]) {
                        self.clean(&sheet)?;
                    }
                }
                Case::Joined { first, second, .. } => {
                    let wide = is_wide(&first);
                    if is_one_in(if wide { ONE_WIDE_IN } else { ONE_JOINED_IN }, &mut joined[usize::from(wide)]) {
                        self.joined(&first, &second)?;
                    }
                }
                Case::Search { .. } | Case::Write { .. } | Case::Read { .. } => {}
            }
        }
        Ok(())
    }

    /// Two sheets of which one or both are around the longest, are refused, or are
    /// of other sizes.
    fn joined_lengths(&mut self) -> Result<()> {
        let missing = vec![0x01, 0x02, 0x02, 0x00];
        let wider = nothing_asked(6);
        let mut sheets = vec![vec![], A.to_vec(), missing, wider, long_sheet()];
        for length in [LONGEST_SHEET - 1, LONGEST_SHEET, LONGEST_SHEET + 1, 70_000] {
            sheets.extend([self.grown(&long_sheet(), length), self.grown(&[], length)]);
        }
        for first in &sheets {
            for second in &sheets {
                self.joined(first, second)?;
            }
        }
        for _ in 0..40 {
            let (n, m) = two_units::sizes(&mut self.rng);
            let pair = two_units::pair(&mut self.rng, n, m).map(|it| it.sheet(&mut self.rng));
            self.joined(&pair[0], &pair[1])?;
        }
        Ok(())
    }

    /// Sheets and stages around the longest, and far longer ones.
    fn lengths(&mut self) -> Result<()> {
        let [narrow, full] = [4, 6].map(|n| longest_draft_of(&mut self.rng, n).sheet(&mut self.rng));
        let mut sheets = vec![vec![], A.to_vec(), long_sheet(), narrow, full];
        for length in [LONGEST_SHEET - 1, LONGEST_SHEET, LONGEST_SHEET + 1, 5_000, 70_000] {
            sheets.extend([self.grown(&long_sheet(), length), self.grown(&A, length), self.grown(&[], length)]);
        }
        for sheet in &sheets {
            self.clean(sheet)?;
            for board in BOARDS {
                self.quote(board, sheet)?;
                self.audit(board, sheet, stage_of_a(board))?;
                self.audit(board, sheet, &self.grown_by_one(stage_of_a(board)))?;
            }
        }
        for board in BOARDS {
            for stage in self.stages_of_all_lengths(board) {
                self.audit(board, &A, &stage)?;
                self.audit(board, &nothing_asked(4), &stage)?;
                self.audit(board, &nothing_asked(6), &stage)?;
                self.audit(board, &long_sheet(), &stage)?;
            }
        }
        Ok(())
    }

    /// The longest stage, and others that are cut or filled up to such lengths;
    /// among them one without an end.
    fn stages_of_all_lengths(&mut self, board: Board) -> Vec<Vec<u8>> {
        let longest = match board {
            Board::Tree => longest_trees(),
            Board::Shared => largest_stage(&mut self.rng, 4, 4),
        };
        let (start, again): (&[u8], &[u8]) = match board {
            Board::Tree => (&[0x20, 0x06, 0x04, 0x21, 0x00], &[0x22, 0x06]),
            Board::Shared => (&[0x20, 0x04, 0x04, 0x26, 0x00, MOST_ENTRIES], &[0x04, 0x00, 0x01]),
        };
        let of_a = stage_of_a(board);
        let mut stages = vec![vec![], of_a.to_vec(), longest.clone()];
        for length in [LONGEST_STAGE, LONGEST_LISTS]
            .into_iter()
            .flat_map(|longest| [longest - 1, longest, longest + 1])
            .chain([4_095, 4_096, 4_097, 5_000, 70_000])
        {
            stages.extend([self.grown(&longest, length), self.grown(of_a, length), self.grown(&[], length)]);
            let endless = start.iter().chain(again.iter().cycle());
            stages.push(endless.copied().take(length).collect());
        }
        stages
    }

    /// Input that comes in pieces, through standard input and through a name.
    fn pieces(&mut self) -> Result<()> {
        for size in [1, 5, 27] {
            let quoted = self.quote_lines(Board::Tree, &A);
            let output = self.piped(&[], &A, size)?;
            self.expect("a quote in pieces", &output, &quoted);
            let quoted = self.quote_lines(Board::Shared, &A);
            let output = self.piped(&["shared".into(), "/dev/stdin".into()], &A, size)?;
            self.expect("a shared quote in pieces", &output, &quoted);
            let output = self.piped(&["clean".into(), "/dev/stdin".into()], &A, size)?;
            self.expect("a copy in pieces", &output, &clean_line(&A));
            self.outcomes.copies += 1;
            self.put("sheet", &A)?;
            for names in [["/dev/stdin", "sheet"], ["sheet", "/dev/stdin"]] {
                let lines = self.joined_lines(&A, &A);
                let output = self.piped(&["joined".into(), names[0].into(), names[1].into()], &A, size)?;
                self.expect("a joined quote in pieces", &output, &lines);
                self.outcomes.joined += 1;
            }
            for board in BOARDS {
                let stage = stage_of_a(board);
                self.put("stage", stage)?;
                let output = self.piped(&[audit_word(board).into(), "/dev/stdin".into(), "stage".into()], &A, size)?;
                self.expect("an audit in pieces", &output, &audit_line(board, &A, stage));
                self.outcomes.quotes[board as usize] += 1;
                self.outcomes.audits[board as usize] += 1;
            }
        }
        Ok(())
    }

    /// What cannot be done: one line on standard error, nothing on standard output.
    fn complaints(&mut self) -> Result<()> {
        self.put("sheet", &A)?;
        self.put("stage", &A_STAGE)?;
        std::fs::create_dir(self.folder.join("folder"))?;
        self.unknown_words()?;
        self.wrong_counts()?;
        self.unreadable_names()?;
        self.names_that_are_no_text()?;
        // A folder as standard input.
        let output = self.command(&[]).stdin(File::open(&self.folder)?).output()?;
        self.expect_complaint("a folder as input", &output, "dagmetzi: cannot read standard input: ");
        Ok(())
    }

    /// A name is bytes, not text.
    fn names_that_are_no_text(&mut self) -> Result<()> {
        const LABEL: &str = "a name that is no text";
        let name = OsString::from_vec(vec![0xFF, 0x20, 0xC3]);
        std::fs::write(self.folder.join(&name), A)?;
        for board in BOARDS {
            let output = self.command(&[audit_word(board).into(), name.clone(), "stage".into()]).output()?;
            self.expect(LABEL, &output, &audit_line(board, &A, &A_STAGE));
            self.outcomes.audits[board as usize] += 1;
        }
        let output = self.command(&["clean".into(), name.clone()]).output()?;
        self.expect(LABEL, &output, &clean_line(&A));
        self.outcomes.copies += 1;
        let lines = self.quote_lines(Board::Shared, &A);
        let output = self.command(&["shared".into(), name.clone()]).output()?;
        self.expect(LABEL, &output, &lines);
        self.outcomes.quotes[Board::Shared as usize] += 1;
        let lines = self.joined_lines(&A, &A);
        for names in [[name.clone(), "sheet".into()], ["sheet".into(), name]] {
            let output = self.command(&[&["joined".into()], &names[..]].concat()).output()?;
            self.expect(LABEL, &output, &lines);
            self.outcomes.joined += 1;
        }
        Ok(())
    }

    fn unknown_words(&mut self) -> Result<()> {
        let near_a_word = ["Audit", "audit ", "audits", "audi", "Clean", "clean ", "cleans", "clea"];
        let near_shared = ["Shared", "shared ", "shareds", "share", "quote-shared"];
        let near_audit_shared =
            ["Audit-shared", "audit-share", "audit-shareds", "audit_shared", "audit shared", "audit-"];
        let near = near_a_word.into_iter().chain(near_shared).chain(near_audit_shared);
        for word in near.chain(["frob", "-h", "--help", "quote"]) {
            self.complains(&[word], &format!("dagmetzi: unknown word {word}: "))?;
            self.complains(&[word, "sheet", "stage"], &format!("dagmetzi: unknown word {word}: "))?;
        }
        for word in ["Joined", "joined ", "joineds", "joine", "join"] {
            self.complains(&[word], &format!("dagmetzi: unknown word {word}{ADVICE}"))?;
            self.complains(&[word, "sheet", "stage"], &format!("dagmetzi: unknown word {word}{ADVICE}"))?;
        }
        self.complains(&[""], "dagmetzi: unknown word (empty): ")?;
        self.complains(&["a\nb"], "dagmetzi: unknown word a?b: ")
    }

    fn wrong_counts(&mut self) -> Result<()> {
        for names in [&[][..], &["sheet"], &["sheet", "stage", "stage"], &["", "", ""]] {
            for word in BOARDS.map(audit_word) {
                self.complains(&[&[word], names].concat(), &format!("dagmetzi: wrong number of names for {word}: "))?;
            }
        }
        for names in [&[][..], &["sheet"], &["missing"], &["sheet", "sheet", "sheet"], &["", "", ""]] {
            let said = "dagmetzi: wrong number of names for joined: try joined FIRST SECOND";
            self.complains(&[&["joined"], names].concat(), said)?;
        }
        for names in [&[][..], &["sheet", "sheet"], &["missing", "sheet"], &["", ""], &["sheet", "stage", "stage"]] {
            for word in ["clean", "shared"] {
                self.complains(&[&[word], names].concat(), &format!("dagmetzi: wrong number of names for {word}: "))?;
            }
        }
        Ok(())
    }

    fn unreadable_names(&mut self) -> Result<()> {
        let longest = "n".repeat(4_096);
        let longer = "n".repeat(4_097);
        let long = "n".repeat(256);
        for (name, message) in [
            ("missing", "cannot open missing: "),
            ("sheet/stage", "cannot open sheet/stage: "),
            ("", "cannot open (empty): "),
            ("one\ntwo\x7F", "cannot open one?two?: "),
            ("folder", "cannot read folder: "),
            (".", "cannot read .: "),
            (&long, &format!("cannot open {long}: ")),
            (&longest, &format!("cannot open {longest}: ")),
            (&longer, "cannot take an argument that long: "),
        ] {
            let message = format!("dagmetzi: {message}");
            for word in BOARDS.map(audit_word) {
                self.complains(&[word, name, "stage"], &message)?;
                self.complains(&[word, "sheet", name], &message)?;
                self.complains(&[word, name, "missing too"], &message)?;
            }
            self.complains(&["joined", name, "sheet"], &message)?;
            self.complains(&["joined", "sheet", name], &message)?;
            self.complains(&["joined", name, "missing too"], &message)?;
            self.complains(&["clean", name], &message)?;
            self.complains(&["shared", name], &message)?;
        }
        self.complains(&[&longer], "dagmetzi: cannot take an argument that long: ")
    }

    // How it is run.

    fn put(&self, name: &str, bytes: &[u8]) -> Result<()> {
        std::fs::write(self.folder.join(name), bytes)
    }

    fn command(&self, arguments: &[OsString]) -> Command {
        let mut command = Command::new(&self.program);
        command.args(arguments).current_dir(&self.folder).stdin(Stdio::null());
        command
    }

    /// Runs it with bytes that come through a pipe, so many at a time.
    fn piped(&self, arguments: &[OsString], bytes: &[u8], size: usize) -> Result<Output> {
        let mut child =
            self.command(arguments).stdin(Stdio::piped()).stdout(Stdio::piped()).stderr(Stdio::piped()).spawn()?;
        let mut pipe = child.stdin.take().expect("piped");
        for piece in bytes.chunks(size) {
            // A program that does not read on is told by what it writes.
            if pipe.write_all(piece).is_err() {
                break;
            }
            std::thread::sleep(Duration::from_millis(3));
        }
        drop(pipe);
        child.wait_with_output()
    }

    /// The tree's sheet comes through standard input, the other by its name.
    fn quote(&mut self, board: Board, sheet: &[u8]) -> Result<()> {
        self.put("sheet", sheet)?;
        let output = match board {
            Board::Tree => self.command(&[]).stdin(File::open(self.folder.join("sheet"))?).output()?,
            Board::Shared => {
                let [name] = self.named(["sheet"]);
                self.command(&["shared".into(), name]).output()?
            }
        };
        let lines = self.quote_lines(board, sheet);
        self.expect(&format!("{board:?}: quote of {}", pairs(sheet)), &output, &lines);
        self.outcomes.quotes[board as usize] += 1;
        Ok(())
    }

    /// Names as they stand in the folder, or from the root on.
    fn named<const N: usize>(&mut self, names: [&str; N]) -> [OsString; N] {
        let folder = if self.rng.once_in(2) { PathBuf::new() } else { self.folder.clone() };
        names.map(|name| folder.join(name).into())
    }

    fn clean(&mut self, sheet: &[u8]) -> Result<()> {
        self.put("sheet", sheet)?;
        let [name] = self.named(["sheet"]);
        let output = self.command(&["clean".into(), name]).output()?;
        self.expect(&format!("copy of {}", pairs(sheet)), &output, &clean_line(sheet));
        self.outcomes.copies += 1;
        Ok(())
    }

    fn audit(&mut self, board: Board, sheet: &[u8], stage: &[u8]) -> Result<()> {
        self.put("sheet", sheet)?;
        self.put("stage", stage)?;
        let [sheet_name, stage_name] = self.named(["sheet", "stage"]);
        let output = self.command(&[audit_word(board).into(), sheet_name, stage_name]).output()?;
        let label = format!("{board:?}: audit of {} by {}", pairs(stage), pairs(sheet));
        self.expect(&label, &output, &audit_line(board, sheet, stage));
        self.outcomes.audits[board as usize] += 1;
        Ok(())
    }

    fn joined(&mut self, first: &[u8], second: &[u8]) -> Result<()> {
        self.put("first", first)?;
        self.put("second", second)?;
        let [first_name, second_name] = self.named(["first", "second"]);
        let output = self.command(&["joined".into(), first_name, second_name]).output()?;
        let lines = self.joined_lines(first, second);
        self.expect(&format!("joined quote of {} with {}", pairs(first), pairs(second)), &output, &lines);
        self.outcomes.joined += 1;
        Ok(())
    }

    fn complains(&mut self, arguments: &[&str], start: &str) -> Result<()> {
        let arguments: Vec<OsString> = arguments.iter().map(OsString::from).collect();
        let output = self.command(&arguments).output()?;
        self.expect_complaint(&format!("{arguments:?}"), &output, start);
        Ok(())
    }

    // What is expected.

    /// The search behind it is held against the second solver.
    fn quote_lines(&mut self, board: Board, sheet: &[u8]) -> String {
        if let Err(r) = taken(sheet) {
            return format!("{}\n", refused(&r));
        }
        let mut stage = vec![0; board.longest()];
        let (outcome, lines) = match quote(board, sheet, BUDGET, &mut stage, &mut self.picker) {
            Ok(q) => (Outcome::Found(q.answer), format!("{}\n{}\n", found(&q.answer), pairs(&stage[..q.length]))),
            Err(r) => (Outcome::Refused(r), format!("{}\n", refused(&r))),
        };
        let room = board.longest() as u16;
        self.checker.check(&Case::Quote { board, budget: BUDGET, room, sheet: sheet.to_vec() }, &outcome);
        lines
    }

    /// The same of two sheets.
    fn joined_lines(&mut self, first: &[u8], second: &[u8]) -> String {
        if let Some(Refused { which, refusal }) = too_long_of(first, second) {
            return format!("{} {}\n", which.word(), refused(&refusal));
        }
        let mut stage = [0; LONGEST_STAGE];
        let (outcome, lines) = match quote_joined(first, second, BUDGET, &mut stage, &mut self.picker) {
            Ok(q) => (Outcome::Found(q.answer), format!("{}\n{}\n", found(&q.answer), pairs(&stage[..q.length]))),
            Err(Refused { which, refusal }) => {
                (Outcome::RefusedOf(which, refusal), format!("{} {}\n", which.word(), refused(&refusal)))
            }
        };
        let (first, second) = (first.to_vec(), second.to_vec());
        let case = Case::Joined { budget: BUDGET, room: LONGEST_STAGE as u16, first, second };
        self.checker.check(&case, &outcome);
        lines
    }

    fn expect(&mut self, label: &str, output: &Output, lines: &str) {
        if !output.status.success() || output.stdout != lines.as_bytes() || !output.stderr.is_empty() {
            self.fault(label, output, lines);
        }
    }

    fn expect_complaint(&mut self, label: &str, output: &Output, start: &str) {
        self.outcomes.complaints += 1;
        let said = &output.stderr;
        let is_one_line = said.ends_with(b"\n") && said.iter().filter(|&&b| b == b'\n').count() == 1;
        if !output.status.success() || !output.stdout.is_empty() || !is_one_line || !said.starts_with(start.as_bytes())
        {
            self.fault(label, output, start);
        }
    }

    fn fault(&mut self, label: &str, output: &Output, expected: &str) {
        let shown = |bytes: &[u8]| OsStr::from_bytes(bytes).to_string_lossy().into_owned();
        let (out, err) = (shown(&output.stdout), shown(&output.stderr));
        self.outcomes
            .faults
            .push(format!("{label}: expected {expected:?}, wrote {out:?}, said {err:?}, {}", output.status));
    }

    /// The bytes cut or filled up to a length by small bytes drawn by chance.
    fn grown(&mut self, bytes: &[u8], length: usize) -> Vec<u8> {
        let mut grown = bytes.to_vec();
        grown.resize_with(length, || crate::draw::damage::small(&mut self.rng));
        grown
    }

    fn grown_by_one(&self, bytes: &[u8]) -> Vec<u8> {
        bytes.iter().copied().chain([0x2F]).collect()
    }
}

/// Whether a sheet says that it has five inputs or six.
fn is_wide(sheet: &[u8]) -> bool {
    matches!(sheet, [0x01, 5 | 6, ..])
}

/// Whether this one is run, of so many each; counts them.
fn is_one_in(many: usize, count: &mut usize) -> bool {
    *count += 1;
    *count % many == 1
}

fn audit_word(board: Board) -> &'static str {
    match board {
        Board::Tree => "audit",
        Board::Shared => "audit-shared",
    }
}

/// Sheet A's smallest stage.
fn stage_of_a(board: Board) -> &'static [u8] {
    match board {
        Board::Tree => &A_STAGE,
        Board::Shared => &A_LISTS,
    }
}

/// A sheet that is too long is refused before anything else is looked at.
fn taken(sheet: &[u8]) -> std::result::Result<&[u8], Refusal> {
    if sheet.len() > LONGEST_SHEET {
        return refuse(TOO_LONG, LONGEST_SHEET);
    }
    Ok(sheet)
}

/// 14 of one of two sheets, where it is what is told: what reading the first
/// refuses comes before the second's length.
fn too_long_of(first: &[u8], second: &[u8]) -> Option<Refused> {
    if let Err(refusal) = taken(first) {
        return Some(Refused { which: Which::First, refusal });
    }
    let refusal = taken(second).err()?;
    sheet::read(first).is_ok().then_some(Refused { which: Which::Second, refusal })
}

fn clean_line(sheet: &[u8]) -> String {
    let mut copy = [0; LONGEST_COPY];
    match taken(sheet).and_then(|sheet| clean(sheet, &mut copy)) {
        Ok(length) => format!("{}\n", pairs(&copy[..length])),
        Err(r) => format!("{}\n", refused(&r)),
    }
}

fn audit_line(board: Board, sheet: &[u8], stage: &[u8]) -> String {
    match taken(sheet).map_or_else(Audit::SheetRefused, |sheet| audit(board, sheet, stage)) {
        Audit::Judged { fits: true, cells } => format!("fits cells {cells}\n"),
        Audit::Judged { fits: false, cells } => format!("differs cells {cells}\n"),
        Audit::SheetRefused(r) => format!("sheet {}\n", refused(&r)),
        Audit::StageRefused(r) => format!("stage {}\n", refused(&r)),
    }
}

/// Every pattern of n inputs is impossible, so that any four wires fit.
fn nothing_asked(n: u8) -> Vec<u8> {
    let rows = (0..1u8 << n).flat_map(|p| [0x03, p]);
    [0x01, n, 0x04].into_iter().chain(rows).chain([0x00]).collect()
}

/// Sheet A with limits that change nothing before its end, 4,096 bytes long.
fn long_sheet() -> Vec<u8> {
    let (end, start) = A.split_last().expect("not empty");
    let limits = [0x06, 0x00, 0x0F, 0x00].repeat((LONGEST_SHEET - A.len()) / 4);
    start.iter().copied().chain(limits).chain([*end]).collect()
}

/// Four parities of six inputs: no tree has more selectors.
fn longest_trees() -> Vec<u8> {
    Board::Tree.bytes_of(6, 4, &[parity(6), !parity(6), parity(6), !parity(6)])
}

#[cfg(test)]
mod tests {
    use super::*;

    #[test]
    fn the_longest_are_as_long_as_they_should_be() {
        assert_eq!(long_sheet().len(), LONGEST_SHEET);
        assert_eq!(longest_trees().len(), LONGEST_STAGE);
    }

    #[test]
    fn the_lines_of_sheet_a() {
        for board in BOARDS {
            let stage = stage_of_a(board);
            assert_eq!(audit_line(board, &A, stage), "fits cells 1\n");
            assert_eq!(audit_line(board, &long_sheet(), stage), "fits cells 1\n");
            assert_eq!(audit_line(board, &A, &[]), "stage refused 1 at 0\n");
            assert_eq!(audit_line(board, &[0; LONGEST_SHEET + 1], &[]), "sheet refused 14 at 4096\n");
        }
        assert_eq!(audit_line(Board::Tree, &A, &longest_trees()), "stage refused 13 at 0\n");
        assert_eq!(audit_line(Board::Shared, &A, &longest_trees()), "stage refused 3 at 0\n");
        assert_eq!(audit_line(Board::Tree, &nothing_asked(6), &longest_trees()), "fits cells 188\n");
        assert_eq!(audit_line(Board::Shared, &nothing_asked(6), &A_LISTS), "stage refused 13 at 0\n");
        assert_eq!(clean_line(&A), format!("{}\n", pairs(&A)));
        assert_eq!(clean_line(&long_sheet()), clean_line(&A));
        assert_eq!(clean_line(&[]), "refused 1 at 0\n");
        assert_eq!(clean_line(&[0; LONGEST_SHEET]), "refused 5 at 0\n");
        assert_eq!(clean_line(&[0; LONGEST_SHEET + 1]), "refused 14 at 4096\n");
    }

    #[test]
    fn too_long_of_two() {
        let told = |first: &[u8], second: &[u8]| {
            too_long_of(first, second).map(|it| (it.which, it.refusal.number, it.refusal.place))
        };
        let long = [0; LONGEST_SHEET + 1];
        assert_eq!(told(&A, &A), None);
        assert_eq!(told(&long, &long), Some((Which::First, 14, 4_096)));
        assert_eq!(told(&long, &[]), Some((Which::First, 14, 4_096)));
        assert_eq!(told(&A, &long), Some((Which::Second, 14, 4_096)));
        assert_eq!(told(&nothing_asked(6), &long), Some((Which::Second, 14, 4_096)));
        // The first is refused for another reason.
        assert_eq!(told(&[], &long), None);
        assert_eq!(told(&[0; LONGEST_SHEET], &long), None);
    }
}
