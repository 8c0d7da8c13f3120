"""The two public lists of a number for each piece, which differ in their names alone."""

from compare.spelling import spelled
from public.layout import uses
from public.questions import CORES, QUESTIONS

CRATE = 'picker_lists'
COLUMNS = ('get_availability_vec', 'piece_priorities')
LISTING = f'Rattle.{CRATE}.specs.Listing'

HEAD = """// A number for each piece.
// Written by tools/publics.py, and not by hand.
use crate::admitted::admit_list;
use crate::rooms::Need;
use memory_records::DownloadingPiece;
use memory_records::live_records;
use memory_records::unpack;
use types::Refusal;
{ghosts}"""

COLUMN = """
fn {name}_core(words: &[u64], cells: &[u16], rows: &[u32], lent: usize, out: &mut [u16]) -> Result<Option<usize>, Refusal>
    requires {{ length rows.now ≡ 1536 }}
    ensures {{ {core} 1 {tell} words.now cells.now rows.now lent
        ({of} {q} (length out.old)) out.old out.new result }}
{{
    let mut counts = [0; 1536];
    let room = out.len();
    let picker = admit_list(words, cells, rows, lent, &mut counts, Need::Pieces, room)?;
    ask_columns::{name}(words, cells, picker.shape, out);
    Ok(Some(picker.shape.pieces))
}}

{comment}pub fn {name}(words: &[u64], cells: &[u16], partials: &[DownloadingPiece], out: &mut [u16]) -> Result<Option<usize>, Refusal>
    ensures {{ {listed} 1 {tell} ({lending} words.now cells.now partials.now)
        ({of} {q} (length out.old)) out.old out.new result }}
{{
    let mut rows = [0; 1536];
    let live = live_records(words);
    let lent = unpack(partials, live, &mut rows);
    {name}_core(words, cells, &rows, lent, out)
}}
"""

COMMENTS = {'get_availability_vec': '// The peers of each piece with the seeds.\n'}


def list_files():
    """Every file with its text."""
    of, lending = spelled(QUESTIONS, 'list_of_picker'), spelled(CORES, 'lending')
    tell, listed, core = (spelled(LISTING, x) for x in ('tell_numbers', 'Listed', 'CoreListed'))
    asked = {name: spelled(QUESTIONS, name) for name in COLUMNS}
    ghosts = {'Rattle.std.specs.Prelude': ['◌≡◌', 'length'], QUESTIONS: [of, *asked.values()], CORES: [lending],
              LISTING: [tell, listed, core]}
    text = HEAD.format(ghosts=uses(ghosts, 'ghost use ', ';'))
    for name, q in asked.items():
        text += COLUMN.format(name=name, q=q, of=of, lending=lending, tell=tell, listed=listed, core=core, comment=COMMENTS.get(name, ''))
    return {f'crates/{CRATE}/src/columns.rt': text}
